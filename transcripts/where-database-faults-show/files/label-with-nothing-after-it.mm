$c a $. l
