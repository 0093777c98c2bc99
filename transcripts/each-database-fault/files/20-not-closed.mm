$c a $. l $a a
