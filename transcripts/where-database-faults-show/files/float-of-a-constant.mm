$c a $. l $f a a $.
