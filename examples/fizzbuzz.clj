; Fizz for multiples of three, Buzz for multiples of five.
(defn line [n]
  (cond (= 0 (mod n 15)) "FizzBuzz"
        (= 0 (mod n 3)) "Fizz"
        (= 0 (mod n 5)) "Buzz"
        true n))

(loop [n 1]
  (when (<= n 15)
    (println (line n))
    (recur (inc n))))
