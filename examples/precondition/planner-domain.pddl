; A machine makes coffee. The planner knows that it brews only from ground beans.
(define (domain coffee)
(:predicates (water-filled) (beans-ground) (coffee-ready))
(:action grind
 :precondition (and)
 :effect (and (beans-ground)))
(:action brew
 :precondition (and (water-filled) (beans-ground))
 :effect (and (coffee-ready))))
