$c a $. $v x $. f $f a x $. l $a x $.
