_start: svc #0
.data
a: .byte 1
.text
a: svc #0
