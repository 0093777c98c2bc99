$c |- set = $.
$v x y $.
vx $f set x $.
vy $f set y $.
${
$d x y $.
ne $a |- x = y $.
$( (Proof modification is discouraged.) $)
g $p |- x = y $=
      vx vy ne $.
$}
