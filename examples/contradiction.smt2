(set-logic ALL)
; Can alice be an admin and not be one? Expected: unsat.
(declare-sort U 0)
(declare-const alice U)
(declare-const Admins (Set U))
(assert (set.member alice Admins))
(assert (not (set.member alice Admins)))
(check-sat)
