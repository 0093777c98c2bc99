$c |- wff ( -> ) $.
$v P Q $.
wp $f wff P $.
wq $f wff Q $.
wim $a wff ( P -> Q ) $.
ax $a |- ( P -> P ) $.
${
up.1 $e |- P $.
up $a |- ( Q -> P ) $.
$}
spare $a |- ( P -> ( Q -> P ) ) $.
t1 $p |- ( Q -> ( P -> P ) ) $= wp wp wim wq wp ax up $.
t2 $p |- ( P -> ( P -> P ) ) $= wp wp t1 $.
listed $p |- ( Q -> ( P -> P ) ) $= ( t2 up t1 ) ABE $.
unknown $p |- ( Q -> ( P -> P ) ) $= wp wp wim wq ? up $.
faulty $p |- ( P -> P ) $= wp nosuch ax $.
above $p |- ( P -> P ) $= wp faulty $.
last $p |- ( P -> ( P -> P ) ) $= ( t1 ) AAB $.
