_start: svc #0
.zero 4194301
