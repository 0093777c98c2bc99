$v x $. $d x $.
