$v x y $. l $f x y $.
