__arm_tpidr2_save: svc #0
_start: .sme_abi
