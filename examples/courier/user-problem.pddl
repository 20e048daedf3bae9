; The user takes the direct road for short.
(define (problem letter) (:domain courier)
  (:objects depot mill town - place)
  (:init (at depot) (road depot mill) (road mill town) (road depot town)
    (= (length depot mill) 2) (= (length mill town) 3) (= (length depot town) 4))
  (:goal (at town))
  (:metric minimize (total-cost)))
