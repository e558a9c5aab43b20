// Counts from 3 down to 0, and exits with 0.
    .text
    .global _start
_start:
    mov x3, #3
next:
    subs x3, x3, #1
    b.ne next
    mov x8, #93             // exit
    svc #0
