$c a $. l $p a $= l
