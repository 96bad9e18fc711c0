; A way takes as much charge as it is long. At a station a robot is charged to the full.
(define (domain charging)
(:types robot place)
(:predicates (at ?r - robot ?p - place) (station ?p - place))
(:functions (charge ?r - robot) (full ?r - robot) (way ?p - place ?q - place))
(:durative-action drive
 :parameters (?r - robot ?p - place ?q - place)
 :duration (= ?duration (/ (way ?p ?q) 2))
 :condition (and (at start (at ?r ?p)) (at start (>= (charge ?r) (way ?p ?q))))
 :effect (and (at start (not (at ?r ?p))) (at start (decrease (charge ?r) (way ?p ?q))) (at end (at ?r ?q))))
(:durative-action load
 :parameters (?r - robot ?p - place)
 :duration (= ?duration 10)
 :condition (and (at start (station ?p)) (over all (at ?r ?p)))
 :effect (at end (assign (charge ?r) (full ?r)))))
