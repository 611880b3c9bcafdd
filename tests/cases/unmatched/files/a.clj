(println 1]
