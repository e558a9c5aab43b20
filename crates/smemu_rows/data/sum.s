// Adds the numbers of an array, and exits with the low 8 bits of the sum; the sum itself stays in x0 until then, and in memory.
    .text
    .global _start
_start:
    adr x1, array
    adr x2, array_end
    mov x0, #0
next:
    cmp x1, x2
    b.cs done
    ldr x3, [x1], #8
    add x0, x0, x3
    b next
done:
    adr x4, total
    str x0, [x4]
    mov x8, #93             // exit
    svc #0

    .data
    .align 3
array:
    .quad 1, 10, 100, 1000
    .quad 0x10000, 0xffffffffffffffff
array_end:
total:
    .zero 8
