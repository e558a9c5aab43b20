// Loads and stores vectors of ZA past the last one: their numbers are taken modulo that of the vectors, the address is not. It writes what was stored.
    .text
    .global _start
_start:
    adr x1, bytes
    mov x2, #0
    ptrue p0.b, all
    index z0.b, #1, #3
    dup z1.b, #73
fill:
    st1b {z0.b}, p0, [x1, x2]
    add z0.b, z0.b, z1.b
    incb x2, all
    cmp x2, #1, lsl #12
    b.cc fill

    smstart za
    rdsvl x12, #1
    sub x12, x12, #1        // the last vector
    mov x13, #-1            // the last one, of the low half
    mov x14, #1001
    adr x1, bytes
    ldr za[w12, 0], [x1]
    ldr za[w12, 1], [x1, #1, mul vl]
    ldr za[w12, 15], [x1, #15, mul vl]
    ldr za[w13, 3], [x1, #3, mul vl]
    ldr za[w14, 0], [x1]
    adr x3, stored
    str za[w13, 0], [x3]
    str za[w12, 1], [x3, #1, mul vl]
    mov w12, #2
    str za[w12, 12], [x3, #12, mul vl]
    str za[w12, 15], [x3, #15, mul vl]
    addsvl sp, sp, #-1
    str za[w14, 0], [sp]

    rdsvl x2, #16
    mov x0, #1              // standard output
    adr x1, stored
    mov x8, #64             // write
    svc #0
    mov x0, #0
    mov x8, #93             // exit
    svc #0

    .data
bytes:
    .zero 4096
stored:
    .zero 4096
