_start: .sme_tail
__arm_tpidr2_save:
__arm_za_disable:
__arm_tpidr2_Restore: svc #0
