words x:40 y:40 n:40 d:40 show (((x + y) = n) implies (((x - d) + (y + d)) = n))
