_start: svc #0
.byte 1
_start: svc #0
