; The planner knows that the bridge is closed.
(define (problem today) (:domain delivery)
(:init (at-depot))
(:goal (and (at-town))))
