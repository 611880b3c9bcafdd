; The moves that take a tower from one peg to another.
(defn moves [n from to over]
  (if (= n 0)
    []
    (into (conj (moves (dec n) from over to) [from to])
          (moves (dec n) over to from))))

(def three (moves 3 "a" "b" "c"))
(println (count three) "moves:" three)
(println (count (moves 10 1 2 3)))
