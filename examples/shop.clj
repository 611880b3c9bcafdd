; Shows forks that sell from one stock in transactions, and an actor that hears of each sale once it is committed.
(def stock (ref 10))

(def till
  (behavior [total] [n]
    (println "sold" n "in all" (+ total n))
    (become till (+ total n))))
(def desk (spawn till 0))

(defn sell [n]
  (dosync
    (when (>= @stock n)
      (alter stock - n)
      (send desk n))))

(def one (fork (sell 3)))
(def other (fork (sell 4)))
(join one)
(join other)
(println "left" @stock)
