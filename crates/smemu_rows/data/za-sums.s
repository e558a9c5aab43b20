// Adds a vector to the rows and to the columns of tiles, with one predicate for rows and another for columns. An element is named by the bit
// of its lowest byte alone: of the bits of P1, all those of the first nine bytes, three name words and two doublewords.
    .text
    .global _start
_start:
    smstart
    ptrue p0.b, all
    mov x4, #9
    whilelt p1.b, xzr, x4
    index z5.s, #0, #1
    cmpne p2.s, p0/z, z5.s, #1      // all columns but the second
    index z6.d, #0, #1
    cmpeq p3.d, p0/z, z6.d, #1      // the second alone
    index z0.s, #1, #3
    index z1.d, #-7, #4
    dup z2.b, #-1

    addha za1.s, p1/m, p2/m, z0.s
    addva za2.s, p1/m, p2/m, z0.s
    addha za3.s, p2/m, p1/m, z0.s
    addva za3.s, p2/m, p1/m, z0.s   // on what was added
    addha za1.s, p1/m, p0/m, z2.s   // one less, also from zero
    addha za4.d, p1/m, p3/m, z1.d
    addva za0.d, p1/m, p3/m, z1.d
    addva za4.d, p3/m, p1/m, z1.d
    addha za0.d, p3/m, p0/m, z2.d
    mov x0, #0
    mov x8, #93             // exit
    svc #0
