$c a $. l $p a $= $c $.
