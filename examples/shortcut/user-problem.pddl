; The user believes that it is open, and wonders why the plan doesn't take it.
(define (problem today) (:domain delivery)
(:init (at-depot) (bridge-open))
(:goal (and (at-town))))
