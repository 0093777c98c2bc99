$c a $. $[ other.mm $]
