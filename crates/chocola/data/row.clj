(println "a" 1 nil [1 "b"])
