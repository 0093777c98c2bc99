$c a $. $( b
