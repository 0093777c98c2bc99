$c |- str ( ) $.
$v x y $.
sx $f str x $.
sy $f str y $.
so $a str ( $.
sc $a str ) $.
cat $a |- x y $.
t $p |- ( ) $= ? $.
