_start: svc #0
__arm_za_disable: .byte 1
.sme_abi
