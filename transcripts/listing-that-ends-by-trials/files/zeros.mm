$c |- str a , 0 $.
$v x y $.
sx $f str x $.
sy $f str y $.
${
up.1 $e |- x , y 0 $.
up $a |- a $.
$}
many $a |- x x x x x x x x x x x x x x x x x x x x x x x x x x x x x x x x x , 0 x $.
t $p |- a $= ? $.
