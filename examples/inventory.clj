; What is in stock after some deliveries.
(def deliveries [[:apple 4] [:pear 2] [:apple 3]])

(defn take-in [stock delivery]
  (let [item (nth delivery 0)
        amount (nth delivery 1)]
    (assoc stock item (+ amount (get stock item 0)))))

(def stock
  (loop [stock {} i 0]
    (if (= i (count deliveries))
      stock
      (recur (take-in stock (nth deliveries i)) (inc i)))))

(println "stock" stock)
(println "apples" (:apple stock) "plums" (:plum stock 0))
