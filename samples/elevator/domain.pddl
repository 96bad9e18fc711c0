; The same domain with durative actions. Between two floors the lift is at none, and it stays where it is as long as it stops there.
(define (domain miconic)
(:requirements :adl :typing :durative-actions)
(:types passenger floor)
(:predicates (origin ?person - passenger ?floor - floor) (destin ?person - passenger ?floor - floor) (above ?floor1 - floor ?floor2 - floor)
 (boarded ?person - passenger) (served ?person - passenger) (lift-at ?floor - floor))
(:durative-action stop
 :parameters (?f - floor)
 :duration (= ?duration 6)
 :condition (over all (lift-at ?f))
 :effect (at end (and
  (forall (?p - passenger)
   (when (and (boarded ?p) (destin ?p ?f))
         (and (not (boarded ?p)) (served ?p))))
  (forall (?p - passenger)
   (when (and (origin ?p ?f) (not (served ?p)))
         (boarded ?p))))))
(:durative-action up
 :parameters (?f1 - floor ?f2 - floor)
 :duration (= ?duration 3)
 :condition (and (at start (lift-at ?f1)) (at start (above ?f1 ?f2)))
 :effect (and (at start (not (lift-at ?f1))) (at end (lift-at ?f2))))
(:durative-action down
 :parameters (?f1 - floor ?f2 - floor)
 :duration (= ?duration 3)
 :condition (and (at start (lift-at ?f1)) (at start (above ?f2 ?f1)))
 :effect (and (at start (not (lift-at ?f1))) (at end (lift-at ?f2)))))
