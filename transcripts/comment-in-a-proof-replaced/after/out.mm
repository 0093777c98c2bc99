$c a $.
l $a a $.
$( kept $) t $p $( kept $) a $=
      l $. $( kept $)
u $p a $= $( kept $) l $.