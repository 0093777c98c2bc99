$c a $. l $a a $. $c l $.
