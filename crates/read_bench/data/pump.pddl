; A pump that fills a tank, and a tap that drains it.
(define (domain pump)
  (:requirements :typing :durative-actions :numeric-fluents :timed-initial-literals)
  (:types tank - place place)
  (:predicates (open ?t - tank) (power) (watched ?p - place))
  (:functions (level ?t - tank) - number)
  (:action watch :parameters (?p - place) :precondition (not (watched ?p)) :effect (watched ?p))
  (:durative-action fill
    :parameters (?t - tank)
    :duration (= ?duration 4)
    :condition (and (over all (power)) (at start (not (open ?t))))
    :effect (at end (increase (level ?t) 10))))
