$c |- wff pair ( -> ) < , > $.
$v P Q $.
wp $f wff P $.
wq $f wff Q $.
wim $a wff ( P -> Q ) $.
pr $a pair < P , Q > $.
t1 $p pair < ( P -> Q ) , ( P -> Q ) > $= ? $.
t2 $p pair < ( P -> Q ) , ( P -> Q ) > $= ? $.
t3 $p pair < ( P -> Q ) , ( P -> Q ) > $= ? $.
t4 $p pair < ( P -> Q ) , ( P -> Q ) > $= ? $.
