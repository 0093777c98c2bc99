$c a $. l $v x $.
