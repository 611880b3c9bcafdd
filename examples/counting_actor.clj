; An actor that counts its messages. It takes one at a time, and what it becomes holds from the next one on.
(def counter
  (behavior [n] [word]
    (println n word)
    (become counter (inc n))))

(def c (spawn counter 1))
(send c "apple")
(send c "pear")

; Messages of a transaction are sent where it is done.
(dosync
  (send c "plum")
  (send c "cherry"))
