$c a $.
l $a a $.
t $p a $= ? $.
