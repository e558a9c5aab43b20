.byte 1
__arm_tpidr2_restore: .byte 1, 1, 1
_start: .sme_tail
