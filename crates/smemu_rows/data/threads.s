// Each thread adds two outer products in ZA, of the bytes 1, 2, 3 .. and of bytes that are 2 more than its number, and after each it draws a
// ticket from the first shared word. None waits for another, so they may run in any order, and on any core.
    .text
    .global _start
_start:
    add x1, x0, #2          // X0 starts as the thread's number
    mov x2, #0x7f0000000000
    mov x3, #1
    smstart                 // Streaming SVE mode, and ZA
    ptrue p0.b, all
    index z0.b, #1, #1
    dup z1.b, w1
    smopa za0.s, p0/m, p0/m, z0.b, z1.b
    ldadd x3, x4, [x2]
    smopa za0.s, p0/m, p0/m, z0.b, z1.b
    ldadd x3, x5, [x2]
    mov x0, #0
    mov x8, #93             // exit
    svc #0
