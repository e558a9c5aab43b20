// Moves vectors to slices of tiles of each element size and back, and writes what came back. The slices are past the last one: their numbers
// are taken modulo that of the slices. The upper halves of X12 to X15 are no part of them.
    .text
    .global _start
_start:
    smstart
    mov x12, #261
    movk x12, #7, lsl #32
    mov x13, #1003
    movk x13, #65535, lsl #48
    mov x14, #4369
    movk x14, #1, lsl #16
    movk x14, #1, lsl #32
    mov x15, #-1
    ptrue p0.b, all
    mov x4, #5
    whilelt p1.b, xzr, x4   // of bytes five elements, of halfwords three, of words two, and else one
    index z0.b, #1, #3
    index z1.h, #-5, #7
    index z2.s, #9, #-4
    index z3.d, #-16, #15
    dup z4.b, #-1
    dup z5.h, #17, lsl #8

    mova za0h.b[w12, 15], p0/m, z0.b
    mova za1v.h[w13, 7], p1/m, z1.h
    mova za1h.h[w12, 6], p1/m, z5.h
    mova za2h.s[w14, 3], p0/m, z2.s
    mova za3v.s[w15, 2], p1/m, z4.s
    mova za5v.d[w15, 1], p0/m, z3.d
    mova za6h.d[w14, 0], p1/m, z4.d
    mova za9v.q[w12, 0], p0/m, z3.q
    mova za14h.q[w13, 0], p1/m, z5.q

    mova z8.b, p0/m, za0v.b[w12, 15]
    mova z9.h, p0/m, za1h.h[w13, 7]
    mova z10.s, p0/m, za2v.s[w14, 3]
    mova z11.d, p0/m, za5h.d[w15, 1]
    mova z12.q, p0/m, za9h.q[w12, 0]
    dup z13.b, #85
    mova z13.b, p1/m, za0h.b[w12, 15]
    dup z14.b, #85
    mova z14.d, p1/m, za5v.d[w15, 1]
    dup z15.b, #85
    mova z15.q, p1/m, za9v.q[w12, 0]
    adr x1, back
    mov x2, #0
    st1b {z8.b}, p0, [x1, x2]
    incb x2, all
    st1b {z9.b}, p0, [x1, x2]
    incb x2, all
    st1b {z10.b}, p0, [x1, x2]
    incb x2, all
    st1b {z11.b}, p0, [x1, x2]
    incb x2, all
    st1b {z12.b}, p0, [x1, x2]
    incb x2, all
    st1b {z13.b}, p0, [x1, x2]
    incb x2, all
    st1b {z14.b}, p0, [x1, x2]
    incb x2, all
    st1b {z15.b}, p0, [x1, x2]
    incb x2, all

    mov x0, #1              // standard output
    mov x8, #64             // write
    svc #0
    mov x0, #0
    mov x8, #93             // exit
    svc #0

    .data
back:
    .zero 2048
