; The user believes that unloading costs 2.
(define (domain logistics)
  (:requirements :strips :typing :action-costs)
  (:types vehicle package - thing
          truck airplane - vehicle
          airport depot - location)
  (:predicates (at ?t - thing ?l - location)
               (in ?p - package ?v - vehicle)
               (road ?from ?to - location)
               (route ?from ?to - airport))
  (:functions (total-cost) - number
              (distance ?from ?to - location) - number
              (fare ?from ?to - airport) - number)
  (:action load
    :parameters (?p - package ?v - vehicle ?l - location)
    :precondition (and (at ?p ?l) (at ?v ?l))
    :effect (and (in ?p ?v) (not (at ?p ?l))
                 (increase (total-cost) 1)))
  (:action unload
    :parameters (?p - package ?v - vehicle ?l - location)
    :precondition (and (in ?p ?v) (at ?v ?l))
    :effect (and (at ?p ?l) (not (in ?p ?v))
                 (increase (total-cost) 2)))
  (:action drive
    :parameters (?t - truck ?from ?to - location)
    :precondition (and (at ?t ?from) (road ?from ?to))
    :effect (and (at ?t ?to) (not (at ?t ?from))
                 (increase (total-cost) (distance ?from ?to))))
  (:action fly
    :parameters (?a - airplane ?from ?to - airport)
    :precondition (and (at ?a ?from) (route ?from ?to))
    :effect (and (at ?a ?to) (not (at ?a ?from))
                 (increase (total-cost) (fare ?from ?to)))))
