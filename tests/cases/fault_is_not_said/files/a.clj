(quot 1 0)
