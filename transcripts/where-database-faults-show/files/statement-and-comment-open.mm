$c a $( b
