$c a $.
l $a a $.
t1 $p a $= l $.
t2 $p a $= ? $.
t10 $p a $= l l $.
x.t $p a $= no $.
short $p a $= ( l ) A $.
