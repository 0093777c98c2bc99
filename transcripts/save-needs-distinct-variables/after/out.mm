$c |- set = $.
$v x y z $.
vx $f set x $.
vy $f set y $.
vz $f set z $.
${
$d x y $.
ne $a |- x = y $.
$}
xz $p |- x = z $= ? $.
zx $p |- z = x $= ? $.
xx $p |- x = x $= ? $.
${
$d y z $.
yz $p |- y = z $=
      ( ne )
      ABC $.
$}
