// Puts room for 32 vectors of streaming mode on the stack and stores vectors of ZA there; then it adds the length of a predicate of streaming
// mode to SP, which is a multiple of 16 no more where that has fewer bytes.
    .text
    .global _start
_start:
    adr x1, bytes
    mov x2, #0
    ptrue p0.b, all
    index z0.b, #1, #3
    dup z1.b, #73
fill:
    st1b {z0.b}, p0, [x1, x2]
    add z0.b, z0.b, z1.b
    incb x2, all
    cmp x2, #1536
    b.cc fill

    rdsvl x3, #1
    rdsvl x4, #-32
    rdsvl x5, #31
    addsvl sp, sp, #-32
    addsvl x6, sp, #31
    addspl x7, sp, #-32
    adr x1, bytes
    mov w12, #3
    smstart za
    ldr za[w12, 0], [x1]
    ldr za[w12, 5], [x1, #5, mul vl]
    str za[w12, 0], [sp]
    str za[w12, 5], [sp, #5, mul vl]
    addspl sp, sp, #1
    ldr za[w12, 1], [sp, #1, mul vl]
    mov x0, #0
    mov x8, #93             // exit
    svc #0

    .data
bytes:
    .zero 1536
