$c wff |- ( ) -> $.
$v P Q R $.
wp $f wff P $.
wq $f wff Q $.
wr $f wff R $.
wi $a wff ( P -> Q ) $.
k1 $a |- ( P -> ( Q -> P ) ) $.
id $a |- ( P -> P ) $.
${
mp.1 $e |- P $.
mp.2 $e |- ( P -> Q ) $.
mp $a |- Q $.
$}
${
tr.1 $e |- ( P -> Q ) $.
tr.2 $e |- ( Q -> R ) $.
tr $a |- ( P -> R ) $.
$}
t $p |- ( P -> ( Q -> P ) ) $= ? $.
