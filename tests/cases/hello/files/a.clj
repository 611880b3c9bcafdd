(println 42)
(println -7)
