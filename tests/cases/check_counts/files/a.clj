(defn a [] (b)) (defn b [] (a))
