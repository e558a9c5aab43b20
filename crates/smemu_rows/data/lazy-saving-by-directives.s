// Leaves ZA dormant over a call that turns it off, and restores it after the call; the support routines and the tail of the call are written out.
    .text
    .global _start
_start:
    smstart
    ptrue p0.b, all
    index z0.b, #1, #3
    dup z1.b, #7
    rdsvl x1, #1
    mov w12, #0
fill:
    mova za0h.b[w12, 0], p0/m, z0.b
    add z0.b, z0.b, z1.b
    add w12, w12, #1
    cmp w12, w1
    b.cc fill
    smstop sm

    // a block with a slot for each vector of ZA
    adr x19, block
    adr x0, buffer
    str x0, [x19]
    strh w1, [x19, #8]
    msr tpidr2_el0, x19
    bl __arm_za_disable
    mrs x3, svcr
    mrs x4, tpidr2_el0
    .sme_tail
    mrs x5, svcr
    mov x0, #0
    mov x8, #93
    svc #0

    .sme_abi

    .data
    .align 4
block:
    .quad 0, 0
buffer:
    .zero 1024
