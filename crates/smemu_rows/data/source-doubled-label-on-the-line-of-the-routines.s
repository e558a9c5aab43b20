_start: svc #0
__arm_za_disable: .sme_abi
