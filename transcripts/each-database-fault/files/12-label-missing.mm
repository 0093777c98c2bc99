$c a $. $a a $.
