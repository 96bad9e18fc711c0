; A guard walks from place to place through doors, and looks at them.
(define (domain patrol)
(:types guard place)
(:constants gate hall yard - place)
(:predicates (at ?g - guard ?p - place) (open ?p - place) (seen ?p - place) (windy))
; The door of the place that the guard goes to has to stay open on the way.
(:durative-action walk
 :parameters (?g - guard ?p - place ?q - place)
 :duration (= ?duration 3)
 :condition (and (at start (at ?g ?p)) (at start (open ?q)) (over all (open ?q)))
 :effect (and (at start (not (at ?g ?p))) (at end (at ?g ?q))))
(:durative-action look
 :parameters (?g - guard ?p - place)
 :duration (= ?duration 1)
 :condition (over all (at ?g ?p))
 :effect (at end (seen ?p))))
