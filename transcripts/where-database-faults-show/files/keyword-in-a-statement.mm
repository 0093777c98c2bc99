$c a $. l $a a $f a $.
