$c p q r s t $.
aaaaaaaaaaaaaaaaaaaaaaaa $a p $.
bbbbbbbbbbbbbbbbbbbbbbbb $a q $.
ccccccccccccccccccccccc $a r $.
dddddddddddddddddddddddddddddddddddddddddddddddddddddddddddddddddddddddddddddddd $a s $.
${
j.1 $e p $.
j.2 $e q $.
j.3 $e r $.
j.4 $e s $.
join $a t $.
$}
lines $p t $=
      aaaaaaaaaaaaaaaaaaaaaaaa bbbbbbbbbbbbbbbbbbbbbbbb ccccccccccccccccccccccc
      dddddddddddddddddddddddddddddddddddddddddddddddddddddddddddddddddddddddddddddddd
      join $.
other $p t $= ? $.
