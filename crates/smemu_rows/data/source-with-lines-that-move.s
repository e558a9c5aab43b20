// A source whose lines are moved about.
    .text
    .global _start
_start:
    movz x0, #3
    adr x1, table
next:
    ldr x2, [x1]
    add x3, x3, x2
    subs x0, x0, #1
    b.ne next               // a label behind it
    cbz x3, end
    bl leaf

    b end
leaf:
    movz x4, #7
    ret
words:
    .word 1, 0xffffffff
    .quad leaf
end:
    movz x8, #93
    svc #0
    .data
    .align 3
table:
    .quad 41, table
bytes: .byte 1, 2, 255
    .zero 5
    .quad end, 18446744073709551615
