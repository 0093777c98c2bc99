$c a $. $v x $. l $a a x $.
