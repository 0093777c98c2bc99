$v x $. $d x y $.
