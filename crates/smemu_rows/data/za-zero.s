// Fills ZA with ones, and zeroes tiles: all, none, and those of even number. After each it keeps the first byte of each vector of ZA, and writes all of them.
    .text
    .global _start
_start:
    adr x1, ones
    adr x2, column
    mov x3, #0
    smstart
    dup z1.b, #-1
    ptrue p0.b, all
    st1b {z1.b}, p0, [x1, x3]
    bl fill
    zero #255
    bl keep
    bl fill
    zero #0
    bl keep
    zero #85
    bl keep

    mov x0, #1              // standard output
    adr x1, column
    rdsvl x2, #3
    mov x8, #64             // write
    svc #0
    zero #128               // also where streaming mode is off
    mov x0, #0
    mov x8, #93             // exit
    svc #0

fill:
    rdsvl x12, #1
next:
    sub x12, x12, #1
    ldr za[w12, 0], [x1]
    cbnz x12, next
    ret

keep:
    st1b {za0v.b[w12, 0]}, p0, [x2, x3]
    incb x3, all
    ret

    .data
ones:
    .zero 256
column:
    .zero 768
