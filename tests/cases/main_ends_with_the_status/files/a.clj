(println 1) (quot 1 0)
