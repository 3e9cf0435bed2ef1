# The formula of examples/first, with hint lines that name the same clauses in another order.
words x:1 y:1
show (((x = 1) and (y = 1)) implies (x = 1))
