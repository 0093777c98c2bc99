$c a $.
l $a a $.
$( (Proof modification is discouraged.) $)
guarded $p a $= l $.
short $p a $= ( l ) A $.
two $p a $= l ? $.
t $p a $= $( none yet $) ? $.
