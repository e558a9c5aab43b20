.word 1
first:.sme_abi // the three
.byte 1, 2, 3
.align 2
_start: b __arm_tpidr2_save
 b __arm_za_disable
 b first
