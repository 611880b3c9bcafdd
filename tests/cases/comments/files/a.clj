; a comment
(println 1) ; another ) (
(println ;; here
 2)