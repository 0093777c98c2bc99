$c |- wff $.
$v P $.
wp $f wff P $.
${
nx.1 $e |- P $.
nx $a |- P $.
$}
t $p |- P $= ? $.
