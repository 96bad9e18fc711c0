; Robots carry crates between rooms, as much as each can load.
(define (domain crates)
(:types robot crate room)
(:constants dock - room)
(:predicates (robot_at ?r - robot ?p - room) (crate_at ?c - crate ?p - room) (connected ?a - room ?b - room))
(:functions (weight ?c - crate) (can_load ?r - robot))
(:durative-action move
:parameters (?r - robot ?a - room ?b - room)
:duration (= ?duration 5)
:condition (and (at start (robot_at ?r ?a)) (at start (connected ?a ?b)))
:effect (and (at start (not (robot_at ?r ?a))) (at end (robot_at ?r ?b))))
(:durative-action carry
:parameters (?r - robot ?c - crate ?a - room ?b - room)
:duration (= ?duration (weight ?c))
:condition (and (at start (robot_at ?r ?a)) (at start (crate_at ?c ?a)) (at start (connected ?a ?b)) (at start (<= (weight ?c) (can_load ?r))))
:effect (and (at start (not (robot_at ?r ?a))) (at start (not (crate_at ?c ?a))) (at end (robot_at ?r ?b)) (at end (crate_at ?c ?b))))
)
