$c |- wff ( -> ) $.
$v P Q $.
wp $f wff P $.
wq $f wff Q $.
ax $a |- ( P -> Q ) $.
t $p |- ( ( P -> Q ) -> Q ) $= ? $.
