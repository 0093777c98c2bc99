$c |- set = $.
$v x y z $.
vx $f set x $.
vy $f set y $.
vz $f set z $.
${
$d x y $.
ne $a |- x = y $.
$}
id $a |- x = x $.
p1 $p |- x = x $= ? $.
p2 $p |- x = z $= ? $.
${
$d x z $.
p3 $p |- z = x $= ? $.
$}
