_start: b odd
.byte 1
odd:
