// Adds 2,499,000 products of two vectors to a tile of ZA, in ten million instructions.
    .text
    .global _start
_start:
    smstart
    ptrue p0.b, all
    index z0.b, #1, #1
    dup z1.b, #1
    movz x9, #8632
    movk x9, #38, lsl #16
loop:
    smopa za0.s, p0/m, p0/m, z0.b, z1.b
    add x1, x1, #1
    subs x9, x9, #1
    b.ne loop
    movz x0, #0
    movz x8, #93
    svc #0
