// A handler with streaming code of its own comes while the program holds data in vectors, in a predicate and in ZA.
// The program posts the signal to itself and waits, in streaming mode, until the handler has been there; then it adds the same products once
// more, for which all that the handler changed must be as it was before.
    .text
    .global _start
_start:
    mov x0, #5              // the signal
    adr x1, handler
    mov x8, #134            // set handler
    svc #0
    mov x0, #0              // to this thread
    mov x1, #5
    mov x8, #131            // post
    svc #0
    adr x1, handled
    smstart                 // Streaming SVE mode, and ZA
    ptrue p0.b, all
    index z0.b, #1, #1
    dup z1.b, #1
    smopa za0.s, p0/m, p0/m, z0.b, z1.b
wait:
    ldr x2, [x1]
    cbz x2, wait
    smopa za0.s, p0/m, p0/m, z0.b, z1.b
    mov x0, #0
    mov x8, #93             // exit
    svc #0

handler:                    // it begins outside streaming mode and with ZA off; X0 is the signal
    smstart
    ptrue p1.b, all
    dup z0.b, #9
    smopa za0.s, p1/m, p1/m, z0.b, z0.b
    smstop
    adr x9, handled
    str x0, [x9]
    mov x8, #139            // return, by the frame at SP
    svc #0

    .data
handled:
    .quad 0
