table: .word 1, 0xFFFFFFFF,0
.byte 0, 255
.align 2
_start: mov x8, #93
 svc #0
