$c |- str a , $.
$v x y $.
sx $f str x $.
sy $f str y $.
${
pair.1 $e |- x , y $.
pair $a |- a $.
$}
join $a |- x y $.
t $p |- a $= ? $.
