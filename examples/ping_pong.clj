; Shows two actors that answer each other: whoever gets a message sends the next one back, until the count is down.
(def player
  (behavior [name] [from n]
    (println name n)
    (when (pos? n)
      (send from (self) (dec n)))))

(def ping (spawn player "ping"))
(def pong (spawn player "pong"))
(send ping pong 5)
