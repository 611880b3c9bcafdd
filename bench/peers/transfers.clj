;; The transfers of `stress NUMBER SIZE` with Clojure's refs and agents: 100 refs of 1,000 each, eight tellers who move money
;; between them, and a counter that prints at the end what all refs hold together.
;;
;;     clojure bench/peers/transfers.clj 7 1000
;;
;; prints `total 100000`. The numbers are drawn as `make` draws them, so they are the same transfers.

(def words (map (fn [word] (Long/parseLong word)) *command-line-args*))
(def number (first words))
(def size (second words))

(def refs (vec (repeatedly 100 (fn [] (ref 1000)))))

(def finished (promise))

(defn draws [state]
  (let [state (mod (+ (* state 1103515245) 12345) 2147483648)]
    (lazy-seq (cons (quot state 65536) (draws state)))))

(defn move [from to n]
  (dosync (alter from - n) (alter to + n) nil))

(defn total []
  (dosync (reduce + (map deref refs))))

(defn count-down [left]
  (when (= left 1)
    (println "total" (total))
    (deliver finished true))
  (dec left))

(def counter (agent size))

(def tellers (vec (repeatedly 8 (fn [] (agent nil)))))

(defn transfer [_ from to n]
  (move (nth refs from) (nth refs to) n)
  (send counter count-down)
  nil)

(doseq [[teller from to amount] (take size (partition 4 (draws number)))]
  (send (nth tellers (mod teller 8)) transfer (mod from 100) (mod to 100) (inc (mod amount 50))))

(when (pos? size)
  (deref finished))
(shutdown-agents)
