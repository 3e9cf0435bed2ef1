# A step from the plain words to the primed ones: a counter below a fixed bound counts up by one, and stays within the bound.
# n is fixed: no step changes it, so n' is n.
words x:8 fixed n:8
show (((x < n) and (x' = (x + 1))) implies (x' <= n'))
