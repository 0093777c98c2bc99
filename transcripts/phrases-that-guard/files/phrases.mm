$c a $.
$( (Proof modification is discouraged.) $)
plain $p a $= ? $.
$( Text before. (Proof modification is discouraged.) Text after. $)
amid $p a $= ? $.
$( (Proof
   modification	is   discouraged.) $)
on-two-lines $p a $= ? $.
$( (proof modification is discouraged.) $)
in-lower-case $p a $= ? $.
$( (Proof modification is discouraged) $)
without-stop $p a $= ? $.
$( (Proof modification is discouraged.) $)
$( Another comment. $)
before-another-comment $p a $= ? $.
$( (Proof modification is discouraged.) $)
${
before-a-token $p a $= ? $.
$}
behind-the-label $( (Proof modification is discouraged.) $) $p a $= ? $.
