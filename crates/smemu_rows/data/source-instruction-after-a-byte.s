.byte 1
_start: svc #0
