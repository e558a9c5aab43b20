_start: .sme_abi
 svc #0
__arm_za_disable:
