// Each thread adds to shared words 1 and 2 under a lock, which is shared word 0, posts a signal to the next
// thread after each round, and keeps ZA meanwhile: its handler uses ZA too. It ends with 0 where its ZA is
// at the end what it was before the first round. tools/smemu-tools stress runs it.
.text
.global _start
_start:
    mov x28, x0
    mov x27, x1
    movz x0, #1
    adr x1, handler
    movz x8, #134
    svc #0
    smstart za
    // fill ZA with the thread's number plus one
    ldr x20, pattern_at
    add x2, x28, #1
    movz x3, #32
    mov x4, x20
fill:
    str x2, [x4], #8
    subs x3, x3, #1
    b.ne fill
    rdsvl x26, #1
    movz x12, #0
load:
    ldr za[w12, 0], [x20]
    add x12, x12, #1
    cmp x12, x26
    b.ne load
    movz x9, #32512, lsl #32
    movz x25, #40
round:
    movz x2, #0
    add x3, x28, #1
    cas x2, x3, [x9]
    cbz x2, locked
    movz x8, #124
    svc #0
    b round
locked:
    ldr x4, [x9, #8]
    add x4, x4, x3
    str x4, [x9, #8]
    movz x5, #1
    add x6, x9, #16
    ldadd x5, x7, [x6]
    str xzr, [x9]
    // to the next thread, the last to the first
    mov x0, x3
    cmp x0, x27
    b.ne post
    movz x0, #0
post:
    movz x1, #1
    movz x8, #131
    svc #0
    subs x25, x25, #1
    b.ne round
    // ZA again, each vector in whole
    ldr x21, copy_at
    movz x12, #0
check:
    str za[w12, 0], [x21]
    movz x3, #0
compare:
    ldr x4, [x20, x3]
    ldr x5, [x21, x3]
    cmp x4, x5
    b.ne lost
    add x3, x3, #8
    cmp x3, x26
    b.ne compare
    add x12, x12, #1
    cmp x12, x26
    b.ne check
    movz x0, #0
    movz x8, #93
    svc #0
lost:
    movz x0, #1
    movz x8, #93
    svc #0
handler:
    smstart za
    zero #255
    movz x8, #139
    svc #0
.align 3
pattern_at: .quad pattern
copy_at: .quad copy
.data
pattern: .zero 256
copy: .zero 256
