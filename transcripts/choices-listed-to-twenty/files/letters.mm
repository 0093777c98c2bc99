$c |- str a b c $.
$v x y $.
sx $f str x $.
sy $f str y $.
sa $a str a $.
cat $a |- x y $.
long $p |- a b c a b c a b c a b c a b c a b c a b c a b c $= ? $.
