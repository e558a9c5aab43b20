// Loads slices of tiles of each element size and stores slices, and writes what was stored. Elements that are not active are loaded as zero, and not stored.
    .text
    .global _start
_start:
    adr x1, bytes
    mov x2, #0
    ptrue p0.b, all
    index z0.b, #1, #3
    dup z1.b, #73
fill:
    st1b {z0.b}, p0, [x1, x2]
    add z0.b, z0.b, z1.b
    incb x2, all
    cmp x2, #512
    b.cc fill

    smstart
    mov x12, #261
    movk x12, #7, lsl #32
    mov x13, #1003
    mov x14, #4369
    mov x15, #-1
    ptrue p0.b, all
    mov x4, #5
    whilelt p1.b, xzr, x4   // of bytes five elements, of halfwords three, of words two, and else one
    dup z31.b, #-1
    mova za0h.b[w12, 15], p0/m, z31.b
    mova za1v.h[w13, 7], p0/m, z31.h
    mova za2h.s[w14, 3], p0/m, z31.s
    mova za5v.d[w15, 1], p0/m, z31.d
    mova za9v.q[w12, 0], p0/m, z31.q

    adr x1, bytes
    mov x2, #3
    ld1b {za0h.b[w12, 15]}, p1/z, [x1, x2]
    ld1h {za1v.h[w13, 7]}, p1/z, [x1, x2, lsl #1]
    ld1d {za5v.d[w15, 1]}, p1/z, [x1, x2, lsl #3]
    ld1q {za9v.q[w12, 0]}, p1/z, [x1, x2, lsl #4]
    mov x5, #-2
    add x6, x1, #32
    ld1w {za2h.s[w14, 3]}, p1/z, [x6, x5, lsl #2]
    ld1b {za0v.b[w13, 0]}, p1/z, [x6, x5]
    ld1h {za0h.h[w14, 0]}, p0/z, [x6, x5, lsl #1]
    ld1w {za3v.s[w15, 0]}, p1/z, [x6, x5, lsl #2]
    ld1d {za6h.d[w14, 0]}, p0/z, [x6, x5, lsl #3]
    ld1q {za15h.q[w12, 0]}, p0/z, [x6, x5, lsl #4]

    adr x1, stored
    mov x2, #0
ones:
    st1b {z31.b}, p0, [x1, x2]
    incb x2, all
    cmp x2, #2048
    b.cc ones
    mov x7, #0
    st1b {za0v.b[w12, 15]}, p0, [x1, x7]
    addsvl x1, x1, #1
    st1h {za1h.h[w13, 7]}, p1, [x1, x7, lsl #1]
    addsvl x1, x1, #1
    st1w {za2v.s[w14, 3]}, p0, [x1, x7, lsl #2]
    addsvl x1, x1, #1
    st1d {za5h.d[w15, 1]}, p1, [x1, x7, lsl #3]
    addsvl x1, x1, #1
    st1q {za9v.q[w12, 0]}, p0, [x1, x7, lsl #4]
    addsvl x1, x1, #1
    st1q {za15h.q[w12, 0]}, p1, [x1, x7, lsl #4]
    addsvl x1, x1, #1
    st1d {za6v.d[w14, 0]}, p0, [x1, x7, lsl #3]
    addsvl sp, sp, #-1
    st1w {za3h.s[w15, 0]}, p1, [sp, x7, lsl #2]

    rdsvl x2, #7
    mov x0, #1              // standard output
    adr x1, stored
    mov x8, #64             // write
    svc #0
    mov x0, #0
    mov x8, #93             // exit
    svc #0

    .data
bytes:
    .zero 512
stored:
    .zero 2048
