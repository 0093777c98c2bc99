$c a $. $x
