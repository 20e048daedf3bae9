; The user has the jet in the south, and believes in a road from the factory to the shop.
(define (problem delivery) (:domain logistics)
  (:objects van lorry - truck jet - airplane parcel - package
            north south - airport factory shop - depot)
  (:init (at van factory) (at lorry south) (at jet south) (at parcel factory)
    (road factory north) (road north factory) (road south shop) (road shop south)
    (road factory shop)
    (route north south) (route south north)
    (= (distance factory north) 3) (= (distance north factory) 3)
    (= (distance south shop) 4) (= (distance shop south) 4)
    (= (distance factory shop) 25)
    (= (fare north south) 20) (= (fare south north) 20))
  (:goal (at parcel shop))
  (:metric minimize (total-cost)))
