; Shows tasks inside one transaction: flight, hotel and car are reserved by three forked tasks, and the trip is booked whole
; or not at all.
(def flights (ref 2))
(def rooms (ref 1))
(def cars (ref 5))
(def trips (ref []))

; Takes one of what is left; false where nothing is.
(defn reserve [stock]
  (if (pos? @stock)
    (do (alter stock dec) true)
    false))

(defn book [who]
  (dosync
    (if (and (pos? @flights) (pos? @rooms) (pos? @cars))
      (let [flight (fork (reserve flights))
            room (fork (reserve rooms))
            car (fork (reserve cars))]
        (if (and (join flight) (join room) (join car))
          (do (alter trips conj who)
              "booked")
          "gone meanwhile"))
      "refused")))

(println "Ada" (book "Ada"))
(println "Bob" (book "Bob"))
(println "left" @flights @rooms @cars)
(println "trips" @trips)
