$c |- wff a b $.
$v P $.
wp $f wff P $.
wb $a wff b $.
a1 $a |- a $.
a2 $a |- a $.
any $a |- b P $.
b1 $a |- b b $.
b2 $a |- b b $.
t1 $p |- a $= ? $.
t2 $p |- b b $= ? $.
${
h1 $e |- a $.
h2 $e |- a $.
t3 $p |- a $= ? $.
$}
t4 $p |- b a $= ? $.
$( (New usage is discouraged.) $)
old $a wff a $.
t5 $p |- b a $= ? $.
new $a wff a $.
t6 $p |- b a $= ? $.
