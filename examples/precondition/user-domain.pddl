; The user believes that water is enough.
(define (domain coffee)
(:predicates (water-filled) (beans-ground) (coffee-ready))
(:action grind
 :precondition (and)
 :effect (and (beans-ground)))
(:action brew
 :precondition (and (water-filled))
 :effect (and (coffee-ready))))
