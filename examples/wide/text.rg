# Of two words of 32 bits, one is at most the other. 862 clauses over 351 variables; 152 hint lines prove it.
words x:32 y:32
show ((x <= y) or (y <= x))
