$v x y $. $d x y x $.
