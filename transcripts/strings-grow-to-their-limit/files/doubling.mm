$c str a $.
$v x $.
sx $f str x $.
${
d.1 $e str x x $.
d $a str x $.
$}
t $p str a $= ? $.
