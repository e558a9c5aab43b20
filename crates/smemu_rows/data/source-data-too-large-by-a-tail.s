_start: svc #0
.data
.zero 4194284
.sme_tail
