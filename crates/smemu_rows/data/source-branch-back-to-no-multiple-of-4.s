.byte 1
odd: .byte 1, 1, 1
_start: b odd
