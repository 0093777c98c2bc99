$c |- set $.
$v w x y z $.
vw $f set w $.
vx $f set x $.
vy $f set y $.
vz $f set z $.
${
$d x y z $.
three $a |- x y z $.
$}
same $p |- w w w $= vw vw vw three $.
${
$d x y $.
ends $p |- x y x $= vx vy vx three $.
$}
none $p |- x y z $= vx vy vz three $.
turned $p |- y x z $= vy vx vz three $.
${
$d x y $.
first $p |- x y z $= vx vy vz three $.
$d x z $.
two $p |- x y z $= vx vy vz three $.
$d z y $.
all $p |- x y z $= vx vy vz three $.
$}
