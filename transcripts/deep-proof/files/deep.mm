$c |- wff ( -> ) $.
$v P Q $.
wp $f wff P $.
wq $f wff Q $.
wim $a wff ( P -> Q ) $.
ax $a |- ( P -> P ) $.
${
nx.1 $e |- P $.
nx $a |- P $.
$}
d $p |- ( P -> P ) $=
wp wp wim
wp wp wim
wp wp wim
wp wp wim
wp wp wim
wp wp wim
wp wp wim
wp wp wim
wp wp wim
wp wp wim
wp wp wim
wp wp wim
wp wp wim
wp wp wim
wp wp wim
wp wp wim
wp wp wim
wp wp wim
wp wp wim
wp wp wim
wp wp wim
wp wp wim
wp wp wim
wp wp wim
wp wp wim
wp wp wim
wp wp wim
wp wp wim
wp wp wim
wp wp wim
wp wp wim
wp wp wim
wp wp wim
wp wp wim
wp wp wim
wp wp wim
wp wp wim
wp wp wim
wp wp wim
wp wp wim
wp ax
nx
nx
nx
nx
nx
nx
nx
nx
nx
nx
nx
nx
nx
nx
nx
nx
nx
nx
nx
nx
nx
nx
nx
nx
nx
nx
nx
nx
nx
nx
nx
nx
nx
nx
nx
nx
nx
nx
nx
nx
$.
