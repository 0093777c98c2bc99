$c wff |- ( ) -> $.
$v P Q $.
wp $f wff P $.
wq $f wff Q $.
wi $a wff ( P -> Q ) $.
id $a |- ( P -> P ) $.
$( (New usage is discouraged.) $)
old $a |- ( P -> P ) $.
${
h.1 $e |- P $.
h $p |- P $= h.1 $.
$}
t $p |- ( P -> P ) $= ? $.
next $p |- ( P -> P ) $= ? $.
