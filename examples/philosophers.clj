; Shows how five philosophers share five forks without a lock and without a deadlock: each takes both forks in one
; transaction, or none.
(def forks [(ref true) (ref true) (ref true) (ref true) (ref true)])
(def meals (ref 0))

(defn left [seat] (nth forks seat))
(defn right [seat] (nth forks (mod (inc seat) 5)))

(defn take-forks [seat]
  (dosync
    (if (and @(left seat) @(right seat))
      (do (ref-set (left seat) false)
          (ref-set (right seat) false)
          true)
      false)))

(defn put-forks [seat]
  (dosync
    (ref-set (left seat) true)
    (ref-set (right seat) true)
    (alter meals inc)))

; Tries until it has eaten so many times.
(defn philosopher [seat times]
  (loop [eaten 0]
    (if (= eaten times)
      eaten
      (if (take-forks seat)
        (do (put-forks seat)
            (recur (inc eaten)))
        (recur eaten)))))

(def seats
  [(fork (philosopher 0 3)) (fork (philosopher 1 3)) (fork (philosopher 2 3))
   (fork (philosopher 3 3)) (fork (philosopher 4 3))])

(println "each ate" (join (nth seats 0)) (join (nth seats 1)) (join (nth seats 2)) (join (nth seats 3)) (join (nth seats 4)))
(println "meals" @meals)
(println "forks on the table" @(nth forks 0) @(nth forks 1) @(nth forks 2) @(nth forks 3) @(nth forks 4))
