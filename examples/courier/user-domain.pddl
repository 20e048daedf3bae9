; The user forgets that a courier who rides away is no longer there.
(define (domain courier)
  (:requirements :strips :typing :action-costs)
  (:types place)
  (:predicates (at ?p - place) (road ?from ?to - place))
  (:functions (total-cost) - number (length ?from ?to - place) - number)
  (:action ride
    :parameters (?from ?to - place)
    :precondition (and (at ?from) (road ?from ?to))
    :effect (and (at ?to)
                 (increase (total-cost) (length ?from ?to)))))
