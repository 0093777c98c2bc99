$c |- 0 1 num $.
$v x y $.
nx $f num x $.
ny $f num y $.
${
h $e |- 0 x $.
r $a |- 1 $.
$}
s $a |- y 0 $.
t $p |- 1 $= ? $.
