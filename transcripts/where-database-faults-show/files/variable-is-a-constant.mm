$c a $. $v a $.
