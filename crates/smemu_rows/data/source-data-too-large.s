_start: svc #0
.data
.zero 4194305
