; Shows Conway's game of life: the next generation of each row is a task of its own, and the board is a vector of rows.
(def size 6)

(def glider
  [[0 1 0 0 0 0]
   [0 0 1 0 0 0]
   [1 1 1 0 0 0]
   [0 0 0 0 0 0]
   [0 0 0 0 0 0]
   [0 0 0 0 0 0]])

(defn alive [board x y]
  (nth (nth board (mod y size)) (mod x size)))

(defn neighbours [board x y]
  (+ (alive board (- x 1) (- y 1)) (alive board x (- y 1)) (alive board (+ x 1) (- y 1))
     (alive board (- x 1) y) (alive board (+ x 1) y)
     (alive board (- x 1) (+ y 1)) (alive board x (+ y 1)) (alive board (+ x 1) (+ y 1))))

(defn next-cell [board x y]
  (let [around (neighbours board x y)]
    (cond
      (= 3 around) 1
      (= 2 around) (alive board x y)
      true 0)))

(defn next-row [board y]
  (loop [x 0 row []]
    (if (= x size)
      row
      (recur (inc x) (conj row (next-cell board x y))))))

; All rows are forked before the first one is joined.
(defn next-board [board]
  (let [rows [(fork (next-row board 0)) (fork (next-row board 1)) (fork (next-row board 2))
              (fork (next-row board 3)) (fork (next-row board 4)) (fork (next-row board 5))]]
    (loop [y 0 done []]
      (if (= y size)
        done
        (recur (inc y) (conj done (join (nth rows y))))))))

(defn row-text [row]
  (loop [row row text ""]
    (if (empty? row)
      text
      (recur (rest row) (str text (if (= 1 (first row)) "#" "."))))))

(defn show [board]
  (loop [board board]
    (when (not (empty? board))
      (println (row-text (first board)))
      (recur (rest board)))))

(loop [board glider n 0]
  (println "generation" n)
  (show board)
  (when (< n 4)
    (recur (next-board board) (inc n))))
