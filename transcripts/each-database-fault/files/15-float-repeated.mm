$c a $. $v x $. l $f a x $. m $f a x $.
