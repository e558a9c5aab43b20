// Keeps a product in ZA over a call by the lazy saving scheme of AAPCS64, adds the product once more, and exits with the first sum, which
// is to be 20. The function that is called has a product of its own: it first saves what is the caller's.
    .text
    .global _start
_start:
    smstart                 // Streaming SVE mode, and ZA
    ptrue p0.b, all
    index z0.b, #1, #1
    dup z1.b, #1
    smopa za0.s, p0/m, p0/m, z0.b, z1.b
    adr x19, block
    msr tpidr2_el0, x19     // from here on ZA is dormant
    bl square
    .sme_tail               // ZA is the caller's again
    smopa za0.s, p0/m, p0/m, z0.b, z1.b
    mov w12, #0
    adr x1, row
    str za[w12, 0], [x1]    // the first row of the tile
    ldr w0, [x1]
    mov x8, #93             // exit
    svc #0

square:
    mov x20, x30
    bl __arm_za_disable     // the lawful callee: ZA is saved, off, and TPIDR2_EL0 null
    smstart za              // a ZA of its own, of zeros
    smopa za0.s, p0/m, p0/m, z1.b, z1.b
    smstop za
    ret x20

    .sme_abi

    .data
    .align 4
block:
    .quad buffer            // where the slices go
    .quad 16                // so many of them; the bytes after the first two are zero
buffer:
    .zero 256               // 16 slices of 16 bytes, which is all of ZA at 128 bits
row:
    .zero 16
