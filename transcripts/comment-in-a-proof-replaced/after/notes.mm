$c a $.
l $a a $.
$( kept $) t $p $( kept $) a $=
$( not kept $) ?  $( not kept $)
$. $( kept $)
u $p a $= $( kept $) l $.