; Shows a router: wires are laid on a grid, each in one transaction that takes free cells only; a wire that finds none of its
; two ways free is not laid.
(def width 6)
(def height 5)

(defn new-grid []
  (loop [cells [] k 0]
    (if (= k (* width height))
      cells
      (recur (conj cells (ref nil)) (inc k)))))

(def grid (new-grid))

(defn cell [x y] (nth grid (+ x (* y width))))

; The places from a up to b, or down to it.
(defn steps [a b]
  (loop [path [a] k a]
    (cond
      (= k b) path
      (< k b) (recur (conj path (inc k)) (inc k))
      true (recur (conj path (dec k)) (dec k)))))

(defn row-of-cells [xs y]
  (loop [cells [] xs xs]
    (if (empty? xs)
      cells
      (recur (conj cells (cell (first xs) y)) (rest xs)))))

(defn column-of-cells [x ys]
  (loop [cells [] ys ys]
    (if (empty? ys)
      cells
      (recur (conj cells (cell x (first ys))) (rest ys)))))

; First along the row and then along the column, or the other way round.
(defn way [x1 y1 x2 y2 row-first]
  (if row-first
    (into (row-of-cells (steps x1 x2) y1) (rest (column-of-cells x2 (steps y1 y2))))
    (into (column-of-cells x1 (steps y1 y2)) (rest (row-of-cells (steps x1 x2) y2)))))

(defn all-free [cells]
  (loop [cells cells]
    (cond
      (empty? cells) true
      (some? @(first cells)) false
      true (recur (rest cells)))))

(defn lay [cells wire]
  (loop [cells cells]
    (when (not (empty? cells))
      (ref-set (first cells) wire)
      (recur (rest cells)))))

(defn connect [wire x1 y1 x2 y2]
  (dosync
    (let [one (way x1 y1 x2 y2 true)
          other (way x1 y1 x2 y2 false)]
      (cond
        (all-free one) (do (lay one wire) true)
        (all-free other) (do (lay other wire) true)
        true false))))

(def a (fork (connect "a" 0 0 3 2)))
(def b (fork (connect "b" 5 0 1 4)))
(def c (fork (connect "c" 0 4 0 1)))
(def d (fork (connect "d" 2 3 5 4)))
(println "laid" (join a) (join b) (join c) (join d))

(defn row-text [y]
  (loop [x 0 text ""]
    (if (= x width)
      text
      (let [wire @(cell x y)]
        (recur (inc x) (str text (if wire wire ".")))))))

(loop [y 0]
  (when (< y height)
    (println (row-text y))
    (recur (inc y))))
