${ $v x $. $} $c a $. x $a a $.
