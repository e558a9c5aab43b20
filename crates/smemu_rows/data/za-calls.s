// Calls the kernel in streaming mode: each call ends it, whatever it answers, and leaves ZA. After them x20 to x24 have SVCR, and x25 to x27
// the answers; after the first x28 has the last byte of Z0, and x29 the number of elements that P0 names. A call outside streaming mode
// leaves Z0, whose last byte x30 has. The last call, which ends the program, is made in streaming mode too.
    .text
    .global _start
_start:
    adr x1, bytes
    mov w12, #2
    smstart
    ldr za[w12, 0], [x1]
    dup z0.b, #65
    ptrue p0.b, all
    mov x0, #1              // standard output
    mov x2, #16
    mov x8, #64             // write
    svc #0
    mrs x20, svcr
    lastb w28, p7, z0.b
    cntp x29, p0, p0.b
    smstart sm
    dup z0.b, #66
    ptrue p0.b, all
    svc #0                  // descriptor 16 is none
    mrs x21, svcr
    mov x25, x0
    smstart sm
    dup z0.b, #67
    mov x0, #2
    mov x1, #0              // no byte is there
    svc #0
    mrs x22, svcr
    mov x26, x0
    mov x8, #1000           // no call
    smstart sm
    dup z0.b, #68
    svc #0
    mrs x23, svcr
    mov x27, x0
    dup z0.b, #69           // streaming mode is off: the vectors stay
    mov x0, #1
    mov x2, #0
    mov x8, #64
    svc #0
    mrs x24, svcr
    lastb w30, p7, z0.b
    smstart sm
    dup z3.b, #70
    ptrue p3.b, all
    mov x0, #0
    mov x8, #93             // exit
    svc #0

    .data
bytes:
    .byte 115, 116, 114, 101, 97, 109, 105, 110, 103, 32, 109, 111, 100, 101, 32, 10   // "streaming mode " and a line feed
    .zero 240
