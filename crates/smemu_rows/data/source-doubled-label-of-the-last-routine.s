__arm_tpidr2_restore: svc #0
_start: .sme_abi
