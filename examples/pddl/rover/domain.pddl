; A rover that takes samples and sends what it found while the orbiter is above the horizon.
(define (domain rover)
 (:requirements :typing :durative-actions :numeric-fluents :timed-initial-literals)
 (:types place sample)
 (:predicates
  (at ?p - place) (still) (lies ?s - sample ?p - place) (taken ?s - sample) (sent ?s - sample)
  (open-sky ?p - place) (orbiter-up))
 (:functions (drive-time ?a ?b - place) (drive-charge ?a ?b - place) (charge) (send-time ?s - sample))
 (:durative-action drive
  :parameters (?a ?b - place)
  :duration (= ?duration (drive-time ?a ?b))
  :condition (and (at start (at ?a)) (at start (still)) (at start (>= (charge) (drive-charge ?a ?b))))
  :effect (and
   (at start (not (at ?a))) (at start (not (still))) (at start (decrease (charge) (drive-charge ?a ?b)))
   (at end (at ?b)) (at end (still))))
 (:durative-action take-sample
  :parameters (?s - sample ?p - place)
  :duration (= ?duration 4)
  :condition (and (at start (lies ?s ?p)) (at start (still)) (over all (at ?p)))
  :effect (and (at start (not (still))) (at end (still)) (at end (taken ?s))))
 (:durative-action send
  :parameters (?s - sample ?p - place)
  :duration (= ?duration (send-time ?s))
  :condition (and
   (at start (open-sky ?p)) (at start (taken ?s)) (over all (at ?p)) (over all (orbiter-up)))
  :effect (at end (sent ?s))))
