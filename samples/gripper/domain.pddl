; The same domain with durative actions. What never changes has become types.
(define (domain gripper)
(:requirements :typing :durative-actions)
(:types room ball gripper)
(:predicates (at-robby ?r - room) (at ?b - ball ?r - room) (free ?g - gripper) (carry ?b - ball ?g - gripper))
(:durative-action move
 :parameters (?from - room ?to - room)
 :duration (= ?duration 5)
 :condition (at start (at-robby ?from))
 :effect (and (at start (not (at-robby ?from))) (at end (at-robby ?to))))
(:durative-action pick
 :parameters (?b - ball ?r - room ?g - gripper)
 :duration (= ?duration 2)
 :condition (and (at start (at ?b ?r)) (at start (free ?g)) (over all (at-robby ?r)))
 :effect (and (at start (not (at ?b ?r))) (at start (not (free ?g))) (at end (carry ?b ?g))))
(:durative-action drop
 :parameters (?b - ball ?r - room ?g - gripper)
 :duration (= ?duration 2)
 :condition (and (at start (carry ?b ?g)) (over all (at-robby ?r)))
 :effect (and (at start (not (carry ?b ?g))) (at end (at ?b ?r)) (at end (free ?g)))))
