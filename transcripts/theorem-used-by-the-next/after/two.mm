$c |- term = $.
$v x $.
tx $f term x $.
id $a |- x = x $.
same $a |- x = x $.
first $p |- x = x $=
      tx same $.
second $p |- x = x $=
      tx first $.
