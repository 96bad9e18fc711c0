; Robots go through doors, which are open or shut.
(define (domain doors)
(:types robot room door)
(:predicates (at ?r - robot ?p - room) (leads ?d - door ?p - room ?q - room) (open ?d - door))
(:durative-action pass
 :parameters (?r - robot ?d - door ?p - room ?q - room)
 :duration (= ?duration 2)
 :condition (and (at start (at ?r ?p)) (at start (open ?d)) (over all (leads ?d ?p ?q)))
 :effect (and (at start (not (at ?r ?p))) (at end (at ?r ?q))))
(:durative-action unlock
 :parameters (?r - robot ?d - door ?p - room ?q - room)
 :duration (= ?duration 1)
 :condition (and (at start (leads ?d ?p ?q)) (over all (at ?r ?p)))
 :effect (at end (open ?d))))
