; Shows a count of words: each line is counted by a task of its own, and the counts are added to one map in a ref.
(def lines
  [["to" "be" "or" "not" "to" "be"]
   ["that" "is" "the" "question"]
   ["to" "sleep" "to" "dream"]])

(def counted (ref {}))

(defn count-line [words]
  (loop [words words found {}]
    (if (empty? words)
      found
      (recur (rest words) (assoc found (first words) (inc (get found (first words) 0)))))))

(defn add-counts [found]
  (dosync
    (loop [words (keys found)]
      (when (not (empty? words))
        (let [word (first words)]
          (ref-set counted (assoc @counted word (+ (get found word) (get @counted word 0)))))
        (recur (rest words))))))

(def tasks
  [(fork (add-counts (count-line (nth lines 0))))
   (fork (add-counts (count-line (nth lines 1))))
   (fork (add-counts (count-line (nth lines 2))))])

(join (nth tasks 0))
(join (nth tasks 1))
(join (nth tasks 2))
(println @counted)
