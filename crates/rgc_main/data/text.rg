# A formula over two words of one bit: where both are 1, so is the first. It holds in every state, and four hints prove it.
words x:1 y:1
show (((x = 1) and (y = 1)) implies (x = 1))
