; Shows k-means on a line: tasks find the nearest of two centres for their share of the points and add to sums in refs, until
; the centres stay where they are.
(def points [[1 2 3 4] [21 22 23 24] [2 3 20 25]])
(def centres (ref [0 10]))
(def sums (ref [0 0]))
(def counts (ref [0 0]))

(defn distance [a b] (max (- a b) (- b a)))

(defn nearest [point]
  (if (<= (distance point (nth @centres 0)) (distance point (nth @centres 1))) 0 1))

(defn add-point [point]
  (dosync
    (let [k (nearest point)]
      (ref-set sums (assoc @sums k (+ point (nth @sums k))))
      (ref-set counts (assoc @counts k (inc (nth @counts k)))))))

(defn add-share [share]
  (loop [share share]
    (when (not (empty? share))
      (add-point (first share))
      (recur (rest share)))))

(defn mean [k]
  (if (= 0 (nth @counts k))
    (nth @centres k)
    (quot (nth @sums k) (nth @counts k))))

(defn next-centres []
  (dosync
    (let [after [(mean 0) (mean 1)]]
      (ref-set sums [0 0])
      (ref-set counts [0 0])
      after)))

(loop [turn 1]
  (let [one (fork (add-share (nth points 0)))
        two (fork (add-share (nth points 1)))
        three (fork (add-share (nth points 2)))]
    (join one)
    (join two)
    (join three))
  (let [before @centres
        after (next-centres)]
    (println "turn" turn "centres" after)
    (when (not= before after)
      (dosync (ref-set centres after))
      (recur (inc turn)))))
