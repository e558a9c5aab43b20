// Multiplies a matrix of 18 rows and 12 columns by one of 12 rows and 21 columns, both of signed bytes, and writes the product, of 32-bit
// numbers. Outer products sum up a block of it in a tile of ZA: as many rows and columns as the tile has at this length, fewer at the edges.
// The bytes stand in groups of four: the first four of each row of the first matrix, row after row, then the next four of each, and so the
// columns of the other.
    .text
    .global _start
_start:
    adr x1, first
    mov x2, #468            // the bytes of both matrices
    mov x3, #0
    mov x4, #5
    mov x5, #37
fill:
    madd x3, x3, x4, x5     // each byte is 5 times the one before it, and 37
    strb w3, [x1], #1
    subs x2, x2, #1
    b.ne fill

    smstart
    adr x0, product
    adr x1, first
    adr x2, second
    mov x10, #18            // the rows of the product
    mov x11, #21            // its columns
    ptrue p2.b, all
    mov x20, #0             // the first row of the block
rows:
    whilelt p0.s, x20, x10
    mov x21, #0             // the first column of the block
columns:
    whilelt p1.s, x21, x11
    zero #17                // the tile of words: it is the tiles 0 and 4 of doublewords
    mov x3, x20             // the place of the first row's group
    mov x4, x21             // that of the first column's
    mov x5, #3              // the groups of a row
groups:
    ld1w {z0.s}, p0/z, [x1, x3, lsl #2]
    ld1w {z1.s}, p1/z, [x2, x4, lsl #2]
    smopa za0.s, p2/m, p2/m, z0.b, z1.b     // a row or column past the edge is zero
    add x3, x3, x10
    add x4, x4, x11
    subs x5, x5, #1
    b.ne groups
    madd x6, x20, x11, x21  // the place of the block's first number
    cntp x7, p0, p0.s       // its rows
    mov w12, #0
store:
    st1w {za0h.s[w12, 0]}, p1, [x0, x6, lsl #2]
    add x6, x6, x11
    add w12, w12, #1
    cmp x12, x7
    b.ne store
    incw x21, all
    cmp x21, x11
    b.cc columns
    incw x20, all
    cmp x20, x10
    b.cc rows

    mov x0, #1              // standard output
    adr x1, product
    mov x2, #1512           // its length in bytes
    mov x8, #64             // write
    svc #0                  // streaming mode ends, ZA keeps the last block
    mov x0, #0
    mov x8, #93             // exit
    svc #0

    .data
first:
    .zero 216
second:
    .zero 252
product:
    .zero 1512
