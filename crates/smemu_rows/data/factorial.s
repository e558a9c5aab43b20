// Writes the factorial of 10 in decimal: a recursive function with a frame on the stack, and a loop that writes digits from the last to the first.
    .text
    .global _start
_start:
    mov x0, #10
    bl factorial
    bl write_decimal
    mov x0, #0
    mov x8, #93             // exit
    svc #0

// x0! of x0
factorial:
    cbz x0, one
    stp x29, x30, [sp, #-32]!
    str x0, [sp, #16]
    sub x0, x0, #1
    bl factorial
    ldr x1, [sp, #16]
    mul x0, x0, x1
    ldp x29, x30, [sp], #32
    ret
one:
    mov x0, #1
    ret

// writes x0 in decimal and a line feed
write_decimal:
    adr x1, digits_end
    mov x2, #0              // how many bytes there are
    mov x3, #10
    strb w3, [x1, #-1]!     // 10 is also the line feed
    add x2, x2, #1
digit:
    udiv x4, x0, x3
    msub x5, x4, x3, x0     // the last digit
    add x5, x5, #48
    strb w5, [x1, #-1]!
    add x2, x2, #1
    mov x0, x4
    cbnz x0, digit
    mov x0, #1              // standard output
    mov x8, #64             // write
    svc #0
    ret

    .data
digits:
    .zero 24
digits_end:
    .byte 0
