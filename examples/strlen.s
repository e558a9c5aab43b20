// Exits with the length of a text that ends with a zero byte, found a vector at a time: its first zero byte is the least of their numbers.
    .text
    .global _start
_start:
    adr x1, text
    mov x0, #0              // the bytes before this vector
    ptrue p0.b, all
    index z1.b, #0, #1      // the number of each byte
next:
    ld1b {z0.b}, p0/z, [x1, x0]
    cmpeq p1.b, p0/z, z0.b, #0
    b.ne found              // some byte is zero
    incb x0, all
    b next
found:
    uminv b2, p1, z1.b
    pfalse p2.b
    lasta w3, p2, z2.b      // with no active element, the first one
    add x0, x0, x3
    mov x8, #93             // exit
    svc #0

    .data
text:
    // "A vector of any length finds the end of this text, which is 70 bytes " and a line feed
    .byte 65, 32, 118, 101, 99, 116, 111, 114, 32, 111, 102, 32, 97, 110, 121, 32, 108, 101, 110, 103
    .byte 116, 104, 32, 102, 105, 110, 100, 115, 32, 116, 104, 101, 32, 101, 110, 100, 32, 111, 102, 32
    .byte 116, 104, 105, 115, 32, 116, 101, 120, 116, 44, 32, 119, 104, 105, 99, 104, 32, 105, 115, 32
    .byte 55, 48, 32, 98, 121, 116, 101, 115, 32, 10, 0
