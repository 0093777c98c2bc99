$c a $.
$( (New usage is discouraged.) $)
g $a a $.
$( (Proof modification is discouraged.) $)
t $p a $= ? $.
$( (New usage is discouraged.) $)
u $p a $= ? $.
