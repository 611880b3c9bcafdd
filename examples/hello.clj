(println 42)
(println -7)
(println 9223372036854775807)
