; Shows a sort that divides its work: each half is sorted by a task of its own, and the sorted halves are merged.
(defn merge-sorted [a b]
  (loop [a a b b done []]
    (cond
      (empty? a) (into done b)
      (empty? b) (into done a)
      (<= (first a) (first b)) (recur (rest a) b (conj done (first a)))
      true (recur a (rest b) (conj done (first b))))))

(defn sorted [items]
  (if (< (count items) 2)
    items
    (let [half (quot (count items) 2)
          left (fork (sorted (subvec items 0 half)))
          right (fork (sorted (subvec items half)))]
      (merge-sorted (join left) (join right)))))

(println (sorted [5 3 9 1 12 7 0 -4 5 11]))
(println (sorted []))
