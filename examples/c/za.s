// The routines of AAPCS64 that compiled code calls where it uses streaming mode and ZA, in both modes. They keep all vectors, predicates,
// FFR, X2 to X13, X18 to X30 and SP, and ZA, but where it is restored or turned off.
        .arch armv9-a+sme
        .text

// A block says where ZA is to be saved: 8 bytes of address, 2 of how many vectors, and 6 that are zero. Saving, restoring and turning
// ZA off change X14 to X17 and the flags.

// Saves ZA in the block that TPIDR2_EL0 points to, if it does.
        .globl __arm_tpidr2_save
__arm_tpidr2_save:
        mrs x14, tpidr2_el0
        cbz x14, saved
        ldrh w16, [x14, #8]
        ldr w17, [x14, #12]
        ldrh w15, [x14, #10]
        orr w17, w17, w15
        cbnz w17, bad_block
        ldr x14, [x14]
        cbz x14, saved
        mov w15, #0
save:
        cmp w15, w16
        b.eq saved
        str za[w15, 0], [x14]
        addsvl x14, x14, #1
        add w15, w15, #1
        b save
saved:
        ret

// Restores ZA from the block at X0. TPIDR2_EL0 is 0 then: ZA was saved there.
        .globl __arm_tpidr2_restore
__arm_tpidr2_restore:
        mrs x14, tpidr2_el0
        cbnz x14, bad_block
        ldrh w16, [x0, #8]
        ldr w17, [x0, #12]
        ldrh w15, [x0, #10]
        orr w17, w17, w15
        cbnz w17, bad_block
        ldr x14, [x0]
        cbz x14, restored
        mov w15, #0
restore:
        cmp w15, w16
        b.eq restored
        ldr za[w15, 0], [x14]
        addsvl x14, x14, #1
        add w15, w15, #1
        b restore
restored:
        ret

bad_block:
        brk #1                  // no block of this version: the run stops here, and the report shows all

// Saves ZA where that is asked for, and turns it off.
        .section .text.__arm_za_disable, "ax"
        .globl __arm_za_disable
__arm_za_disable:
        stp x29, x30, [sp, #-16]!
        mov x29, sp
        bl __arm_tpidr2_save
        msr tpidr2_el0, xzr
        smstop za
        ldp x29, x30, [sp], #16
        ret

// X0 is what there is: SME in bit 63, TPIDR2_EL0 in bit 62, PSTATE.ZA in bit 1 and PSTATE.SM in bit 0. X1 is TPIDR2_EL0.
        .section .text.__arm_sme_state, "ax"
        .globl __arm_sme_state
__arm_sme_state:
        mrs x0, svcr
        orr x0, x0, #0xc000000000000000
        mrs x1, tpidr2_el0
        ret

// X0 is how many 64-bit parts a vector has now.
        .section .text.__arm_get_current_vg, "ax"
        .globl __arm_get_current_vg
__arm_get_current_vg:
        cntd x0
        ret
