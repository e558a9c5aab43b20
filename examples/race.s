// Each thread adds 1 to a count in the second shared word, under a lock in the first one. The lock is tested by one instruction and set by
// another, so two threads may both find it open: an exchange, `swpa x3, x4, [x2]`, does both at once.
    .text
    .global _start
_start:
    mov x2, #0x7f0000000000
    mov x3, #1
lock:
    ldar x4, [x2]
    cbnz x4, lock
    stlr x3, [x2]
    ldr x5, [x2, #8]
    add x5, x5, #1
    str x5, [x2, #8]
    stlr xzr, [x2]          // open again
    mov x0, #0
    mov x8, #93             // exit
    svc #0
