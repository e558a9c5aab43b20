// Loads a vertical slice whose last element lies where nothing is mapped: none of it is loaded.
    .text
    .global _start
_start:
    movz x1, #64, lsl #16
    add x1, x1, #2, lsl #12 // past the page of data
    addsvl x1, x1, #-1
    add x1, x1, #8
    mov x2, #0
    mov w12, #1
    smstart
    ptrue p0.b, all
    dup z3.b, #70
    mova za3v.d[w12, 0], p0/m, z3.d
    ld1d {za3v.d[w12, 0]}, p0/z, [x1, x2, lsl #3]

    .data
    .quad 1
