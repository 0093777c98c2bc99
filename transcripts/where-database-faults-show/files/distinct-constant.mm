$c a $. $v x $. $d x a $.
