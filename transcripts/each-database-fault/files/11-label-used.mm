$c a $. l $a a $. l $a a $.
