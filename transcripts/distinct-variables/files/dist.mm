$c |- set = $.
$v x y z $.
vx $f set x $.
vy $f set y $.
vz $f set z $.
${
$d x y $.
ne $a |- x = y $.
lp.1 $e |- x = y $.
lp $a |- x = x $.
$}
${
$d x z $.
p3 $p |- x = x $= vx vz vx vz ne lp $.
$}
p4 $p |- x = x $= vx vz vx vz ne lp $.
