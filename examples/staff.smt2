(set-logic ALL)
; Alice is staff if she is an admin, and she is either locked or an admin. Can that be? And can she also be neither
; locked nor staff? Expected: sat, unsat.
(declare-sort User 0)
(declare-const alice User)
(declare-const Admins (Set User))
(declare-const Staff (Set User))
(declare-const locked Bool)
(assert (=> (set.member alice Admins) (set.member alice Staff)))
(assert (xor locked (set.member alice Admins)))
(check-sat)
(assert (not locked))
(assert (not (set.member alice Staff)))
(check-sat)
