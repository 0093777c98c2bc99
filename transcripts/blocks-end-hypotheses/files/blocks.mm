$c wff |- set ( ) $.
${
$v x $.
fx $f wff x $.
wx $a wff ( x ) $.
ex $e |- x $.
ax $a |- ( x ) $.
$}
${
$v x $.
gx $f set x $.
sx $a set ( x ) $.
$}
$v x $.
hx $f wff x $.
t $p wff ( ( x ) ) $= hx wx wx $.
old $p wff ( x ) $= fx wx $.
${
e1 $e |- x $.
u $p |- ( ( x ) ) $= hx wx hx e1 ax ax $.
$}
late $p |- ( x ) $= hx e1 ax $.
