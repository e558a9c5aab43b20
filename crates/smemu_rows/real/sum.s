// Sums a table, keeps the sum in .bss and on the stack, writes a line, and exits with the sum.
        .text
        .globl  _start
_start: adrp    x1, table
        add     x1, x1, :lo12:table
        movz    x2, #0
        movz    x3, #5
next:   ldr     w4, [x1], #4
        add     x2, x2, x4
        subs    x3, x3, #1
        b.ne    next
        adrp    x5, total
        str     x2, [x5, :lo12:total]
        ldr     x6, =0x1122334455667788
        stp     x6, x2, [sp, #-16]!
        bl      greet
        ldp     x7, x0, [sp], #16
        movz    x8, #93
        svc     #0
        .ltorg
        .word   0x1e604000

greet:  movz    x0, #1
        adrp    x1, line
        add     x1, x1, :lo12:line
        movz    x2, #8
        movz    x8, #64
        svc     #0
        ret

        .section .rodata
line:   .ascii  "the sum\n"

        .data
table:  .word   1, 2, 3, 4, 32

        .bss
        .balign 8
        .zero   4096
total:  .zero   8
