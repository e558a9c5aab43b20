_start: svc #0
.quad 1, _start, nowhere
