; Shows that an auditor who reads all accounts in one transaction always sees the same total, however many transfers run
; beside it.
(def accounts [(ref 100) (ref 100) (ref 100) (ref 100)])

(defn transfer [from to amount]
  (dosync
    (when (>= @(nth accounts from) amount)
      (alter (nth accounts from) - amount)
      (alter (nth accounts to) + amount))))

; Ten transfers, each of another amount, round and round.
(defn clerk [first-account]
  (loop [n 0]
    (when (< n 10)
      (transfer (mod (+ first-account n) 4) (mod (+ first-account n 1) 4) (+ 5 (* 7 n)))
      (recur (inc n)))))

(defn total []
  (dosync
    (loop [k 0 sum 0]
      (if (= k (count accounts))
        sum
        (recur (inc k) (+ sum @(nth accounts k)))))))

(defn auditor [times]
  (loop [n 0 wrong 0]
    (if (= n times)
      wrong
      (recur (inc n) (if (= 400 (total)) wrong (inc wrong))))))

(def clerks [(fork (clerk 0)) (fork (clerk 1)) (fork (clerk 2))])
(def audit (fork (auditor 20)))

(println "audits that found another total:" (join audit))
(join (nth clerks 0))
(join (nth clerks 1))
(join (nth clerks 2))
(println "total" (total))
