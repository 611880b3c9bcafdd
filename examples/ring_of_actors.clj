; Shows actors in a ring: a token goes round it, each actor adds one and hands it on, until it has been round three times.
(def ring (ref []))

(def member
  (behavior [place] [token]
    (if (= token 15)
      (println "the token has been passed" token "times, and stops at" place)
      (send (nth @ring (mod (inc place) (count @ring))) (inc token)))))

(defn grow [size]
  (loop [place 0]
    (when (< place size)
      (let [next-member (spawn member place)]
        (dosync (alter ring conj next-member)))
      (recur (inc place)))))

(grow 5)
(println "members" (count @ring))
(send (first @ring) 0)
