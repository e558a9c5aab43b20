.zero 4194300
_start: svc #0
.byte 1
