(println y)
