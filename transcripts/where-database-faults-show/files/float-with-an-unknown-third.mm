$c a $. $v x $. l $f a x y $.
