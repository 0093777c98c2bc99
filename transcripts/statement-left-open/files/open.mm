$c a $.
$v x
