// Changes PSTATE.SM and PSTATE.ZA. After each change it keeps four bytes, which it writes at the end: SVCR, the last byte of Z0, the number
// of doublewords that P1 names, and the first byte of vector 1 of ZA, 255 where ZA is off. FFR is counted in x26, x27 and x28.
    .text
    .global _start
_start:
    adr x9, seen
    adr x10, vector
    adr x11, sevens
    mov w12, #1
    setffr
    bl set
    smstart sm
    bl see
    bl set
    smstart sm              // changes nothing
    bl see
    smstart                 // PSTATE.ZA alone changes
    bl see
    bl set
    smstart za              // changes nothing
    bl see
    smstart
    bl see
    smstop sm
    bl see
    rdffr p2.b
    cntp x26, p2, p2.b
    ptrue p3.b, all
    wrffr p3.b
    bl set
    smstop sm               // changes nothing
    bl see
    smstop za
    bl see
    smstart za
    bl see
    rdffr p2.b
    cntp x27, p2, p2.b      // the changes of PSTATE.ZA left FFR
    bl set
    smstop                  // PSTATE.ZA alone changes
    bl see
    smstart
    bl see
    bl set
    smstop za               // the vectors of streaming mode stay
    bl see
    smstart za
    bl see
    bl set
    smstop
    bl see
    mov x5, #1
    msr svcr, x5
    bl set
    bl see
    mov x5, #2              // both bits change
    msr svcr, x5
    bl see
    bl set
    mov x5, #1
    msr svcr, x5
    bl see
    bl set
    mov x5, #-2             // 2 and the bits that are ignored
    msr svcr, x5
    bl see
    bl set
    mov x5, #-1
    msr svcr, x5
    bl see
    bl set
    msr svcr, x5            // changes nothing
    bl see
    mov x5, #-4
    msr svcr, x5
    bl see
    rdffr p2.b
    cntp x28, p2, p2.b

    mov x0, #1              // standard output
    adr x1, seen
    sub x2, x9, x1
    mov x8, #64             // write
    svc #0
    setffr
    mov x0, #0
    mov x8, #93             // exit
    svc #0

// sevens in Z0 and in vector 1 of ZA, and all of P1
set:
    dup z0.b, #7
    ptrue p1.d, all
    mrs x4, svcr
    cmp x4, #2
    b.cc set_without
    ldr za[w12, 0], [x11]
set_without:
    ret

see:
    mrs x4, svcr
    strb w4, [x9], #1
    lastb w3, p7, z0.b      // P7 names none: the last element
    strb w3, [x9], #1
    cntp x3, p1, p1.d
    strb w3, [x9], #1
    mov w3, #255
    cmp x4, #2
    b.cc see_without
    str za[w12, 0], [x10]
    ldrb w3, [x10]
see_without:
    strb w3, [x9], #1
    ret

    .data
seen:
    .zero 128
vector:
    .zero 256
sevens:
    .quad 0x0707070707070707, 0x0707070707070707, 0x0707070707070707, 0x0707070707070707
    .quad 0x0707070707070707, 0x0707070707070707, 0x0707070707070707, 0x0707070707070707
    .quad 0x0707070707070707, 0x0707070707070707, 0x0707070707070707, 0x0707070707070707
    .quad 0x0707070707070707, 0x0707070707070707, 0x0707070707070707, 0x0707070707070707
    .quad 0x0707070707070707, 0x0707070707070707, 0x0707070707070707, 0x0707070707070707
    .quad 0x0707070707070707, 0x0707070707070707, 0x0707070707070707, 0x0707070707070707
    .quad 0x0707070707070707, 0x0707070707070707, 0x0707070707070707, 0x0707070707070707
    .quad 0x0707070707070707, 0x0707070707070707, 0x0707070707070707, 0x0707070707070707
