$c a $. l+m $a a $.
