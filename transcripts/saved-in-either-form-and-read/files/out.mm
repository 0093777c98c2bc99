$c |- wff pair ( -> ) < , > $.
$v P Q $.
wp $f wff P $.
wq $f wff Q $.
wim $a wff ( P -> Q ) $.
pr $a pair < P , Q > $.
t1 $p pair < ( P -> Q ) , ( P -> Q ) > $=
      wp wq wim wp wq wim pr $.
t2 $p pair < ( P -> Q ) , ( P -> Q ) > $=
      ( wim pr )
      ABCZED $.
t3 $p pair < ( P -> Q ) , ( P -> Q ) > $=
      ? ? ? wim pr $.
t4 $p pair < ( P -> Q ) , ( P -> Q ) > $=
      ( wim pr )
      ?ABCD $.
