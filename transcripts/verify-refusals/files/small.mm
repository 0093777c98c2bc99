$c a $.
l $a a $.
t $p a $= ? $.
u $p a $= l $.
short $p a $= ( l ) A $.
