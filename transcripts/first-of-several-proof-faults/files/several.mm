$c |- wff ( -> ) $.
$v P Q $.
wp $f wff P $.
wq $f wff Q $.
wim $a wff ( P -> Q ) $.
ax $a |- ( P -> P ) $.
${
up.1 $e |- P $.
up $a |- ( Q -> P ) $.
$}
text-before-run $p |- ( Q -> Q ) $= wim nope $.
text-after-mark $p |- ( Q -> Q ) $= ? nope $.
left-to-right $p |- ( Q -> Q ) $= mark-before-step up.1 nope $.
step-before-mark $p |- ( Q -> Q ) $= wim ? $.
mark-before-step $p |- ( Q -> Q ) $= wq ? wim wim wim $.
float-before-essential $p |- ( Q -> Q ) $= wp wq ax wq up $.
entries-before-result $p |- ( Q -> Q ) $= wp wp wp $.
too-few-before-types $p |- ( Q -> Q ) $= wq ax up $.
