$c a $. l $a a b $.
