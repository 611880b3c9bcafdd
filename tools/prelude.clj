; Under these lines a program of chocola runs on Clojure too: (load-file "tools/prelude.clj") before (load-file "FILE").
; A fork is a future, and an actor is an agent whose state is its behaviour and that behaviour's own state.
(ns user (:refer-clojure :exclude [send]))

(defmacro fork [& body] `(future ~@body))
(defn join [f] (deref f))

(def ^:dynamic *actor* nil)
(def ^:dynamic *next* nil)

(defmacro behavior [state message & body]
  `(fn [state#] (fn [message#] (let [~state state# ~message message#] ~@body))))

(defn spawn [behaviour & state] (agent [behaviour (vec state)] :error-mode :continue))
(defn self [] *actor*)
(defn become [behaviour & state] (reset! *next* [behaviour (vec state)]) nil)

(defn- turn [[behaviour state :as before] actor message]
  (binding [*actor* actor *next* (atom before)]
    ((behaviour state) (vec message))
    @*next*))

; Inside a dosync Clojure keeps the message back until the commit, as chocola does.
(defn send [actor & message] (send-off actor turn actor message) nil)
