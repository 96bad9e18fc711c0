; Robots drive from place to place, where a road leads.
(define (domain fleet)
(:types robot place)
(:predicates (at ?r - robot ?p - place) (road ?p - place ?q - place))
(:durative-action drive
 :parameters (?r - robot ?p - place ?q - place)
 :duration (= ?duration 3)
 :condition (and (at start (at ?r ?p)) (over all (road ?p ?q)))
 :effect (and (at start (not (at ?r ?p))) (at end (at ?r ?q)))))
