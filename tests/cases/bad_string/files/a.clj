(println
 "a\q")