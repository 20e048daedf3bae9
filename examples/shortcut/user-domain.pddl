; A lorry brings goods from the depot to the town. There are two ways: by the mill, or over the bridge.
(define (domain delivery)
(:predicates (at-depot) (at-mill) (at-town) (bridge-open))
(:action drive-to-mill
 :precondition (and (at-depot))
 :effect (and (at-mill) (not (at-depot))))
(:action drive-to-town
 :precondition (and (at-mill))
 :effect (and (at-town) (not (at-mill))))
(:action cross-bridge
 :precondition (and (at-depot) (bridge-open))
 :effect (and (at-town) (not (at-depot)))))
