_start: b odd
 b nowhere
.byte 1
odd:
