; A robot brings boxes from place to place. It has one arm, which is free or not.
(define (domain giveback)
(:types robot box place)
(:predicates (at ?b - box ?p - place) (free ?r - robot))
; At the start the arm and the box are taken.
(:durative-action bring
 :parameters (?r - robot ?b - box ?p - place ?q - place)
 :duration (= ?duration 4)
 :condition (and (at start (free ?r)) (at start (at ?b ?p)))
 :effect (and (at start (not (free ?r))) (at start (not (at ?b ?p))) (at end (at ?b ?q)) (at end (free ?r)))))
