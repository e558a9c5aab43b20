// Outer products of the least and the greatest numbers, of all signs, added and subtracted. Of bytes: under P1 in row 0 of the tiles of
// words, under P4 in row 1, with three of the four products. Of halfwords: under P3 in row 1 of the tiles of doublewords. P2 names all
// columns but byte 5.
    .text
    .global _start
_start:
    smstart
    ptrue p0.b, all
    index z5.b, #0, #1
    cmpne p2.b, p0/z, z5.b, #5
    mov x4, #4
    whilelt p1.b, xzr, x4
    mov x4, #16
    whilelt p3.b, xzr, x4
    index z6.d, #0, #-1
    cmpeq p3.b, p3/z, z6.b, #-1     // bytes 8 to 15
    mov x4, #7
    whilelt p4.b, xzr, x4
    index z7.s, #0, #-1
    cmpeq p4.b, p4/z, z7.b, #-1     // bytes 4 to 6
    dup z0.b, #-128
    dup z1.b, #-1           // 255 without a sign
    dup z2.h, #-128, lsl #8 // -32,768
    dup z3.h, #127, lsl #8  // 32,512

    smopa za0.s, p1/m, p2/m, z0.b, z0.b
    usmopa za1.s, p1/m, p2/m, z1.b, z0.b
    sumopa za2.s, p1/m, p2/m, z0.b, z1.b
    umops za3.s, p1/m, p2/m, z1.b, z1.b
    umopa za0.s, p4/m, p0/m, z0.b, z1.b
    smops za1.s, p4/m, p0/m, z0.b, z0.b
    usmops za2.s, p4/m, p2/m, z1.b, z0.b
    sumops za3.s, p4/m, p2/m, z0.b, z1.b

    smopa za0.d, p3/m, p0/m, z2.h, z2.h
    sumopa za1.d, p3/m, p0/m, z2.h, z1.h
    usmopa za2.d, p3/m, p2/m, z1.h, z2.h
    umopa za3.d, p3/m, p2/m, z1.h, z1.h
    smops za4.d, p3/m, p0/m, z2.h, z3.h
    sumops za5.d, p3/m, p0/m, z2.h, z1.h
    usmops za6.d, p3/m, p2/m, z1.h, z2.h
    umops za7.d, p3/m, p2/m, z1.h, z1.h

    mov x0, #0
    mov x8, #93             // exit
    svc #0
