; A plant with reactors that share one cooling loop. A batch runs in a reactor that fits it, takes
; some of the loop's flow while it runs, and power only while the tariff is low. A reactor is rinsed
; before it runs another kind of batch.
(define (domain plant)
 (:requirements :typing :durative-actions :numeric-fluents :timed-initial-literals
  :duration-inequalities)
 (:types reactor batch kind)
 (:predicates
  (idle ?r - reactor) (fits ?b - batch ?r - reactor) (is ?b - batch ?k - kind)
  (set ?r - reactor ?k - kind) (low-tariff) (made ?b - batch))
 (:functions (flow) (need ?b - batch) (time ?b - batch) (rinse-time ?r - reactor))
 (:durative-action run
  :parameters (?r - reactor ?b - batch ?k - kind)
  :duration (= ?duration (time ?b))
  :condition (and
   (at start (fits ?b ?r)) (at start (is ?b ?k)) (at start (set ?r ?k)) (at start (idle ?r))
   (at start (>= (flow) (need ?b))) (over all (low-tariff)))
  :effect (and
   (at start (not (idle ?r))) (at start (decrease (flow) (need ?b)))
   (at end (idle ?r)) (at end (increase (flow) (need ?b))) (at end (made ?b))))
 (:durative-action rinse
  :parameters (?r - reactor ?from ?to - kind)
  :duration (and (>= ?duration (rinse-time ?r)) (<= ?duration (+ (rinse-time ?r) 2)))
  :condition (and (at start (not (= ?from ?to))) (at start (set ?r ?from)) (at start (idle ?r)))
  :effect (and
   (at start (not (idle ?r))) (at start (not (set ?r ?from)))
   (at end (idle ?r)) (at end (set ?r ?to)))))
