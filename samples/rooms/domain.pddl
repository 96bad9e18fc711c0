; A robot moves between rooms, and charges its battery where a charging point is.
(define (domain rooms)
(:requirements :strips :typing :durative-actions)
(:types robot room)
; what is known of robots and rooms
(:predicates (robot_at ?r - robot ?ro - room) (connected ?a - room ?b - room) (battery_full ?r - robot) (battery_low ?r - robot) (charging_point_at ?ro - room))
(:durative-action move
:parameters (?r - robot ?a - room ?b - room)
:duration (= ?duration 5)
:condition (and (at start (connected ?a ?b)) (at start (robot_at ?r ?a)) (over all (battery_full ?r)))
:effect (and (at start (not (robot_at ?r ?a))) (at end (robot_at ?r ?b))))
(:durative-action askcharge
:parameters (?r - robot ?a - room ?b - room)
:duration (= ?duration 5)
:condition (and (at start (robot_at ?r ?a)) (at start (charging_point_at ?b)))
:effect (and (at start (not (robot_at ?r ?a))) (at end (robot_at ?r ?b))))
(:durative-action charge
:parameters (?r - robot ?ro - room)
:duration (= ?duration 5)
:condition (and (at start (robot_at ?r ?ro)) (at start (charging_point_at ?ro)))
:effect (and (at end (not (battery_low ?r))) (at end (battery_full ?r))))
)
