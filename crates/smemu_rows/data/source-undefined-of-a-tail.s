_start: svc #0
 .sme_tail
