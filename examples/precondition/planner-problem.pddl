(define (problem morning) (:domain coffee)
(:init (water-filled))
(:goal (and (coffee-ready))))
