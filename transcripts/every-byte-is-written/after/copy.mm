$( first $)
$c a	$.

  l  $a	a $.
t $p a $=
 l $.   

$( last $)