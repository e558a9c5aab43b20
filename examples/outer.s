// The outer product of the bytes 1, 2, 3 .. and of ones, in a tile of words of ZA: element (r, c) is the sum of the four bytes of row r.
// The kernel call leaves Streaming SVE mode, which makes vectors and predicates zero; ZA stays on, and the report shows it.
    .text
    .global _start
_start:
    smstart                 // Streaming SVE mode, and ZA
    ptrue p0.b, all
    index z0.b, #1, #1
    dup z1.b, #1
    smopa za0.s, p0/m, p0/m, z0.b, z1.b
    mov x0, #0
    mov x8, #93             // exit
    svc #0
