(def a 1)
(def b (+ a 1))
(println b)
