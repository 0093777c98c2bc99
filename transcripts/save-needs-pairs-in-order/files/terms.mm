$c |- term ( + ) = $.
$v a b c s t $.
ta $f term a $.
tb $f term b $.
tc $f term c $.
ts $f term s $.
tt $f term t $.
pl $a term ( a + b ) $.
${
$d s t $.
ne $a |- s = t $.
$}
${
$d a c $.
g $p |- ( a + b ) = ( c + b ) $= ? $.
$d b a $.
h $p |- ( a + b ) = ( c + b ) $= ? $.
$d b c $.
k $p |- ( a + b ) = ( c + b ) $= ? $.
$}
