$c a $. l l+m $a a $.
