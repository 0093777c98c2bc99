$c a $. l $p a $.
