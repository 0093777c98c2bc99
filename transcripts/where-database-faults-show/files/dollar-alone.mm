$c a $. $ a
