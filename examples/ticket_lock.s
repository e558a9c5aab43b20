// Each thread adds one to shared word 2 in 1000 rounds, under a lock that is given in the order of tickets: shared word 0
// is the next ticket, and shared word 1 the one whose turn it is. A thread that waits yields. tools/smemu-tools ticket-lock runs it.
.text
.global _start
_start:
    movz x9, #32512, lsl #32
    add x10, x9, #8
    add x11, x9, #16
    movz x1, #1
    movz x25, #1000
round:
    ldadd x1, x2, [x9]
wait:
    ldr x3, [x10]
    cmp x3, x2
    b.eq locked
    movz x8, #124
    svc #0
    b wait
locked:
    ldr x4, [x11]
    add x4, x4, #1
    str x4, [x11]
    ldadd x1, x3, [x10]
    subs x25, x25, #1
    b.ne round
    movz x0, #0
    movz x8, #93
    svc #0
