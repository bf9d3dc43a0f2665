; Two keys are put in, in either order.
(set-logic ALL)
(declare-sort Key 0)
(declare-const j Key)
(declare-const k Key)
(declare-const S (Set Key))
(assert (not (= (set.insert j (set.insert k S)) (set.insert k j S))))
(set-info :status unsat)
(check-sat)
