// Writes more than there is room for, in streaming mode: the call is not counted, and the mode and its vectors are as before it.
    .text
    .global _start
_start:
    smstart
    dup z3.b, #70
    ptrue p3.b, all
    mov w12, #2
    mova za0h.b[w12, 0], p3/m, z3.b
    mov x0, #1              // standard output
    movz x2, #17, lsl #16
    mov x8, #64             // write
    svc #0
