; Sacks are put on carts, which bear so much and no more. Weights are kilograms.
(define (domain depot)
(:types sack cart)
(:predicates (waits ?s - sack) (on ?s - sack ?c - cart))
(:functions (weight ?s - sack) (load ?c - cart) (limit ?c - cart))
; Ten kilograms take a second.
(:durative-action put
 :parameters (?s - sack ?c - cart)
 :duration (= ?duration (/ (weight ?s) 10))
 :condition (and (at start (waits ?s)) (at start (<= (+ (load ?c) (weight ?s)) (limit ?c))))
 :effect (and (at start (not (waits ?s))) (at end (increase (load ?c) (weight ?s))) (at end (on ?s ?c)))))
