// memcpy, memmove, memset and memchr as streaming code calls them, in both modes. They change X0 to X4, the flags, Z0 to Z2 and P0 to P2;
// AAPCS64 allows more. LLVM's have loads and stores of Advanced SIMD, which are not listed.
        .arch armv9-a+sme
        .section .text.__arm_sc_memcpy, "ax"
        .globl __arm_sc_memcpy
__arm_sc_memcpy:
        mov x3, #0
        whilelo p0.b, x3, x2
        b.pl copied
copy:
        ld1b {z0.b}, p0/z, [x1, x3]
        st1b {z0.b}, p0, [x0, x3]
        incb x3
        whilelo p0.b, x3, x2
        b.mi copy
copied:
        ret

// From the end on, where the copy begins inside of what is copied.
        .section .text.__arm_sc_memmove, "ax"
        .globl __arm_sc_memmove
__arm_sc_memmove:
        sub x3, x0, x1
        cmp x3, x2
        b.lo move
        b __arm_sc_memcpy
move:
        cbz x2, moved
        cntb x3
        cmp x2, x3
        csel x3, x2, x3, lo
        whilelo p0.b, xzr, x3
        sub x2, x2, x3
        ld1b {z0.b}, p0/z, [x1, x2]
        st1b {z0.b}, p0, [x0, x2]
        b move
moved:
        ret

        .section .text.__arm_sc_memset, "ax"
        .globl __arm_sc_memset
__arm_sc_memset:
        dup z0.b, w1
        mov x3, #0
        whilelo p0.b, x3, x2
        b.pl is_set
set:
        st1b {z0.b}, p0, [x0, x3]
        incb x3
        whilelo p0.b, x3, x2
        b.mi set
is_set:
        ret

// No vector goes over the end of a page: what stands behind the byte that is looked for need not be there.
        .section .text.__arm_sc_memchr, "ax"
        .globl __arm_sc_memchr
__arm_sc_memchr:
        dup z0.b, w1
        index z1.b, #0, #1
look:
        cbz x2, none
        mvn x3, x0
        and x3, x3, #4095
        add x3, x3, #1          // so many bytes to the end of the page
        cntb x4
        cmp x3, x4
        csel x3, x3, x4, lo
        cmp x3, x2
        csel x3, x3, x2, lo
        whilelo p0.b, xzr, x3
        ld1b {z2.b}, p0/z, [x0]
        cmpeq p1.b, p0/z, z2.b, z0.b
        b.ne found
        add x0, x0, x3
        sub x2, x2, x3
        b look
found:
        uminv b2, p1, z1.b
        pfalse p2.b
        lasta w3, p2, z2.b      // with no active element, the first one
        add x0, x0, x3
        ret
none:
        mov x0, #0
        ret
