$c |- wff ( -> ) $.
$v P Q $.
wp $f wff P $.
wq $f wff Q $.
wim $a wff ( P -> Q ) $.
ten $a wff P P P P P P P P P P $.
ax $a |- ( P -> P ) $.
${
$d P Q $.
two $a |- ( P -> Q ) $.
$}
${
up.1 $e |- P $.
up $a |- ( Q -> P ) $.
$}
right $p |- ( Q -> Q ) $= wq ax $.
open $p |- ( Q -> Q ) $= wq ? wim $.
folded $p |- ( Q -> Q ) $= ( ax ) AB $.
unnamed $p |- ( Q -> Q ) $= wq nope $.
later $p |- ( Q -> Q ) $= wq later $.
outside $p |- ( Q -> Q ) $= wq $( a comment $) up.1 $.
empty $p |- ( Q -> Q ) $= $( nothing $) $.
short $p |- ( Q -> Q ) $= wq wim $.
typed $p |- ( Q -> Q ) $= wq ax ax $.
other $p |- ( Q -> Q ) $= wp wq wq ax up $.
same $p |- ( Q -> Q ) $= wq wq two $.
apart $p |- ( Q -> Q ) $= wp wq two $.
left $p |- ( Q -> Q ) $= wq wq $.
wrong $p |- ( Q -> Q ) $= wp ax $.
long $p |- ( Q -> Q ) $= wq ten ten ten ten ten ax $.
