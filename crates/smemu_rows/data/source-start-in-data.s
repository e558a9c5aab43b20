svc #0
.data
_start: .quad 0
