$c a $. l $f a $.
