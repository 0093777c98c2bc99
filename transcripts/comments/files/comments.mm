$( Inside a comment $( is text, as are $c and $[ and x$) and "quotes. $)
$c $( here $) a $( and here $) $.
l $( behind a label $) $a a $.
t $p $( in a statement $) a $= $( in a proof $) l $( at its end $) $.
$( $)
