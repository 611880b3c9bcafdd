; Shows a buffer of three places between a producer and two consumers: who finds it full, or empty, tries again.
(def places 3)
(def buffer (ref []))
(def highest (ref 0))

(defn put-item [item]
  (dosync
    (if (< (count @buffer) places)
      (do (alter buffer conj item)
          (ref-set highest (max @highest (count @buffer)))
          true)
      false)))

; A vector of the item, or of nothing.
(defn take-item []
  (dosync
    (if (empty? @buffer)
      []
      (let [item (first @buffer)]
        (alter buffer rest)
        [item]))))

; Takes so many items, or fewer where the buffer is empty before.
(defn consumer [wanted]
  (loop [sum 0 left wanted]
    (if (= 0 left)
      sum
      (let [got (take-item)]
        (if (empty? got)
          sum
          (recur (+ sum (first got)) (dec left)))))))

(loop [n 1]
  (when (put-item (* 10 n))
    (recur (inc n))))
(println "the buffer is full:" @buffer)

(def one (fork (consumer 2)))
(def other (fork (consumer 2)))
(println "taken in all" (+ (join one) (join other)))
(println "never more than" @highest)
