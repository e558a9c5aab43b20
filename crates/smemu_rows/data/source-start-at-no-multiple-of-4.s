.byte 1
_start: .byte 2
