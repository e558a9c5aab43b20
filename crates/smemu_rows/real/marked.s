// Data in the text, with code before, between and after it, and names in both parts.
    .text
    .global _start
table:
    .quad table, _start, word, 0xffffffffffffffff
    .word 0xffffffff, 1
    .byte 1, 2, 3, 4
_start:
    adr x0, table
    ldr x1, [x0, #16]       // the address of word
    ldr x2, [x1]
    ldr x3, here            // 8 bytes from beside the instructions
    adrp x4, word
    add x4, x4, #8
    cmp x1, x4
    b.ne _start
    b over
here:
    .quad 0x0123456789abcdef
over:
    add x2, x2, #1
    str x2, [x1]
    mov x0, #0
    mov x8, #93             // exit
    svc #0

    .data
    .byte 1, 2
    .align 3
word:
    .quad 41
    .word 5
    .quad over
