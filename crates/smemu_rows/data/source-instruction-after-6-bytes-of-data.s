_start: svc #0
.data
.zero 6
svc #0
