; Carts are carried from spot to spot.
(define (domain warehouse)
(:types cart spot)
(:predicates (at ?c - cart ?s - spot) (next ?a - spot ?b - spot))
; The way from a to b has to be free as long as a cart is on it.
(:durative-action carry
 :parameters (?c - cart ?a - spot ?b - spot)
 :duration (= ?duration 2)
 :condition (and (at start (at ?c ?a)) (over all (next ?a ?b)))
 :effect (and (at start (not (at ?c ?a))) (at end (at ?c ?b)))))
