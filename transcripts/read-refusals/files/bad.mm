$c a a $.
