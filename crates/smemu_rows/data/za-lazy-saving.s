// Leaves ZA dormant over a call that turns it off, and restores it after the call; the support routines and the tail of the call are written out.
    .text
    .global _start
_start:
    smstart
    ptrue p0.b, all
    index z0.b, #1, #3
    dup z1.b, #7
    rdsvl x1, #1
    mov w12, #0
fill:
    mova za0h.b[w12, 0], p0/m, z0.b
    add z0.b, z0.b, z1.b
    add w12, w12, #1
    cmp w12, w1
    b.cc fill
    smstop sm

    // a block with a slot for each vector of ZA
    adr x19, block
    adr x0, buffer
    str x0, [x19]
    strh w1, [x19, #8]
    msr tpidr2_el0, x19
    bl __arm_za_disable
    mrs x3, svcr
    mrs x4, tpidr2_el0
    smstart za
    mrs x14, tpidr2_el0
    cbnz x14, .+12
    orr x0, xzr, x19
    bl __arm_tpidr2_restore
    msr tpidr2_el0, xzr
    mrs x5, svcr
    mov x0, #0
    mov x8, #93
    svc #0

__arm_tpidr2_save:
    mrs x14, tpidr2_el0
    cbz x14, .+60
    ldrh w15, [x14, #10]
    ldr w16, [x14, #12]
    orr w15, w15, w16
    cbnz w15, .+48
    ldr x16, [x14]
    cbz x16, .+36
    ldrh w14, [x14, #8]
    cbz w14, .+28
    movz w15, #0
    str za[w15, 0], [x16]
    addsvl x16, x16, #1
    add w15, w15, #1
    sub w17, w15, w14
    cbnz w17, .-16
    ret x30
    brk #1
__arm_za_disable:
    mrs x14, tpidr2_el0
    cbz x14, .+60
    ldrh w15, [x14, #10]
    ldr w16, [x14, #12]
    orr w15, w15, w16
    cbnz w15, .+56
    ldr x16, [x14]
    cbz x16, .+36
    ldrh w14, [x14, #8]
    cbz w14, .+28
    movz w15, #0
    str za[w15, 0], [x16]
    addsvl x16, x16, #1
    add w15, w15, #1
    sub w17, w15, w14
    cbnz w17, .-16
    msr tpidr2_el0, xzr
    smstop za
    ret x30
    brk #1
__arm_tpidr2_restore:
    mrs x14, tpidr2_el0
    cbnz x14, .+64
    ldrh w15, [x0, #10]
    ldr w16, [x0, #12]
    orr w15, w15, w16
    cbnz w15, .+48
    ldr x16, [x0]
    cbz x16, .+36
    ldrh w14, [x0, #8]
    cbz w14, .+28
    movz w15, #0
    ldr za[w15, 0], [x16]
    addsvl x16, x16, #1
    add w15, w15, #1
    sub w17, w15, w14
    cbnz w17, .-16
    ret x30
    brk #1

    .data
    .align 4
block:
    .quad 0, 0
buffer:
    .zero 1024
