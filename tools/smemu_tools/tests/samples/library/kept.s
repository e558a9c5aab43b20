// Sets every register and calls a routine, of thread 2 N the N-th of the table, outside streaming mode, and of thread 2 N + 1 in it.
// It ends at a breakpoint behind the call. A routine gets X0 and X1 as two places of an array and X2 as 300.
        .arch armv9-a+sme
        .text
        .globl _start
_start:
        mov x25, x0
        lsr x26, x0, #1
        adrp x27, table
        add x27, x27, :lo12:table
        add x27, x27, x26, lsl #4
        ldp x26, x28, [x27]
        adrp x1, pattern
        add x1, x1, :lo12:pattern
        smstart za
        mov w12, #0
        rdsvl x2, #1
        mov x3, x1
fill:
        ldr za[w12, 0], [x3]
        add x3, x3, #1
        add w12, w12, #1
        cmp w12, w2
        b.ne fill
        tbnz x28, #0, is_on
        smstop za
is_on:
        adrp x9, block
        add x9, x9, :lo12:block
        adrp x3, buffer
        add x3, x3, :lo12:buffer
        str x3, [x9]
        strh w2, [x9, #8]
        tbz x28, #1, no_block
        msr tpidr2_el0, x9
no_block:
        tbz x25, #0, outside
        smstart sm
        b vectors
outside:
        ptrue p5.h
        wrffr p5.b
vectors:
        mov x3, #0
        .irp n, 0,1,2,3,4,5,6,7,8,9,10,11,12,13,14,15,16,17,18,19,20,21,22,23,24,25,26,27,28,29,30,31
        add x3, x3, #5
        index z\n\().b, w3, #3
        .endr
        .irp n, 0,1,2,3,4,5,6,7,8,9,10,11,12,13,14,15
        sub x3, x3, #9
        whilelo p\n\().b, xzr, x3
        .endr
        add x0, x1, #40
        mov x2, #300
        mov x30, x26
        .irp n, 3,4,5,6,7,8,9,10,11,12,13,14,15,16,17,18,19,20,21,22,23,24,25,26,27,28,29
        mov x\n, #0x100 + \n
        .endr
        blr x30
        brk #0

nothing:
        ret

// Saves ZA, makes it zero and restores it.
there_and_back:
        stp x29, x30, [sp, #-16]!
        bl __arm_tpidr2_save
        mrs x0, tpidr2_el0
        msr tpidr2_el0, xzr
        zero {za}
        bl __arm_tpidr2_restore
        ldp x29, x30, [sp], #16
        ret

        .data
        .p2align 4
// With 1 ZA is on, with 2 TPIDR2_EL0 is a block.
table:  .quad nothing, 1, nothing, 3, nothing, 0
        .quad __arm_tpidr2_save, 1, __arm_tpidr2_save, 3, there_and_back, 3
        .quad __arm_za_disable, 0, __arm_za_disable, 1, __arm_za_disable, 3
        .quad __arm_sme_state, 0, __arm_sme_state, 3, __arm_get_current_vg, 1
        .quad __arm_sc_memcpy, 1, __arm_sc_memmove, 1, __arm_sc_memset, 1, __arm_sc_memchr, 1
block:  .zero 16
pattern:
        .set n, 1
        .rept 1024
        .byte n
        .set n, (n * 5 + 3) & 255
        .endr
        .bss
        .p2align 4
buffer: .zero 65536
