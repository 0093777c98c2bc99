${ $v x
