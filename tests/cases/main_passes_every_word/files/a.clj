(println 1) (fork 2)
