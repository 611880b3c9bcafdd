; Two futures add up numbers, each with values of its own. A future's value comes where it is joined, as often as it is
; asked for.
(defn sum-to [n]
  (loop [i 0 sum 0]
    (if (< n i) sum (recur (inc i) (+ sum i)))))

(def low (fork (sum-to 100)))
(def high (fork (sum-to 1000)))

(println "low" (join low))
(println "high" (join high))
(println "both" (+ (join low) (join high)))
