__arm_tpidr2_restore: ret
_start: .sme_tail
.sme_tail
