(recur 1)
