$c |- wff ( -> ) $.
$v P Q R $.
wp $f wff P $.
wq $f wff Q $.
wim $a wff ( P -> Q ) $.
ax $a |- ( P -> P ) $.
${
min $e |- P $.
maj $e |- ( P -> Q ) $.
mp $a |- Q $.
$}
${
$( (New usage is discouraged.) $)
h.1 $e |- P $.
h $p |- P $= ? $.
$}
t $p |- ( P -> P ) $= ? $.
wr $f wff R $.
$( (New usage is discouraged.) $)
late $a |- ( P -> P ) $.
