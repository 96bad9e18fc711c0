(define (domain rooms)
(:types robot room)
(:predicates (robot_at ?r - robot ?o - room) (connected ?a - room ?b - room))
(:durative-action move
:parameters (?r - robot ?a - room ?b - room)
:duration (= ?duration 5)
:condition (and (at start (connected ?a ?b)) (at start (robot_at ?r ?a)))
:effect (and (at start (not (robot_at ?r ?a))) (at end (robot_at ?r ?b)))))
