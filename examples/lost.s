// Adds an outer product in ZA twice, with a call between, and exits with the first sum, which is to be 20. The function that is called
// makes a product of its own in ZA, and gives the caller's neither back nor tells that it is gone.
    .text
    .global _start
_start:
    smstart                 // Streaming SVE mode, and ZA
    ptrue p0.b, all
    index z0.b, #1, #1
    dup z1.b, #1
    smopa za0.s, p0/m, p0/m, z0.b, z1.b
    bl square
    smopa za0.s, p0/m, p0/m, z0.b, z1.b
    mov w12, #0
    adr x1, row
    str za[w12, 0], [x1]    // the first row of the tile
    smstop
    ldr w0, [x1]
    mov x8, #93             // exit
    svc #0

square:
    zero #255               // all of ZA
    smopa za0.s, p0/m, p0/m, z1.b, z1.b
    ret

    .data
row:
    .zero 256
