_start: .sme_tail
.byte 1
__arm_tpidr2_restore:
