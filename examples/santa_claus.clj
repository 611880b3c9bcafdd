; Shows the Santa Claus problem with actors: he is woken by nine reindeer or by three elves, and the reindeer come first.
(def santa
  (behavior [reindeer elves] [who name]
    (cond
      (= who :reindeer)
      (if (= 9 (inc (count reindeer)))
        (do (println "Santa delivers toys with" (conj reindeer name))
            (become santa [] elves))
        (become santa (conj reindeer name) elves))

      (= who :elf)
      (if (= 3 (inc (count elves)))
        (do (println "Santa meets" (conj elves name))
            (become santa reindeer []))
        (become santa reindeer (conj elves name))))))

(def claus (spawn santa [] []))

(defn herd [from to]
  (loop [n from]
    (when (< n to)
      (send claus :reindeer n)
      (recur (inc n)))))

(defn workshop [from to]
  (loop [n from]
    (when (< n to)
      (send claus :elf n)
      (recur (inc n)))))

(herd 0 5)
(workshop 0 4)
(herd 5 9)
(workshop 4 6)
