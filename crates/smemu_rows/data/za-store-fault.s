// Stores a vector of ZA whose last byte lies where nothing is mapped: none of it is stored.
    .text
    .global _start
_start:
    movz x1, #64, lsl #16
    add x1, x1, #2, lsl #12 // past the page of data
    addsvl x1, x1, #-4
    add x1, x1, #1
    mov w12, #1
    smstart
    ptrue p0.b, all
    dup z3.b, #70
    mova za0h.b[w12, 3], p0/m, z3.b
    smstop sm
    str za[w12, 3], [x1, #3, mul vl]

    .data
    .quad 1
