// Adds two arrays of bytes, each sum saturated to 255, at any vector length: the last turn is under a mask of the bytes that are left.
// Exits with the number of sums that are 255.
    .text
    .global _start
_start:
    adr x1, first
    adr x2, second
    adr x3, sums
    mov x4, #0              // the bytes that are done
    mov x5, #45             // all bytes
    mov x6, #0              // the sums that are 255
    whilelt p0.b, x4, x5
next:
    ld1b {z0.b}, p0/z, [x1, x4]
    ld1b {z1.b}, p0/z, [x2, x4]
    uqadd z0.b, z0.b, z1.b
    st1b {z0.b}, p0, [x3, x4]
    cmpeq p1.b, p0/z, z0.b, #-1
    cntp x7, p0, p1.b
    add x6, x6, x7
    incb x4, all
    whilelt p0.b, x4, x5
    b.mi next               // the first element is active
    mov x0, x6
    mov x8, #93             // exit
    svc #0

    .data
first:
    // "The quick brown fox jumps over the lazy dog: "
    .byte 84, 104, 101, 32, 113, 117, 105, 99, 107, 32, 98, 114, 111, 119, 110, 32, 102, 111, 120, 32
    .byte 106, 117, 109, 112, 115, 32, 111, 118, 101, 114, 32, 116, 104, 101, 32, 108, 97, 122, 121, 32
    .byte 100, 111, 103, 58, 32
second:
    .byte 171, 151, 154, 223, 142, 138, 150, 156, 148, 223, 157, 141, 144, 136, 145, 223, 153, 144, 135, 222, 149, 139, 146
    .byte 143, 140, 1, 2, 3, 4, 5, 141, 151, 154, 223, 147, 158, 133, 134, 223, 155, 144, 152, 0, 0, 255
sums:
    .zero 45
