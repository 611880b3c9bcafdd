; A future that is made inside a transaction is a task of it: it sees the state as it was when it was forked, and what it
; writes and prints counts from where it is joined.
(def total (ref 0))

(println
  (dosync
    (let [writer (fork (ref-set total 10))
          reader (fork @total)]
      (join writer)
      [@total (join reader)])))
(println "total" @total)

(dosync
  (let [child (fork (do (println "in the child") 1))]
    (println "in the transaction")
    (println "joined" (join child))))

; A task that is not joined is joined at the end.
(dosync (fork (alter total + 5)) nil)
(println "total" @total)
