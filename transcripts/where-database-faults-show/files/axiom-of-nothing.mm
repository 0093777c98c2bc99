$c a $. l $a $.
