// Beside a program of several threads, whose entry is _start: thread 0 posts signal 5 to each other one, again and again, and yields; the
// others set a handler, which makes a ZA of its own, and become that program.
        .arch armv9-a+sme
        .text
        .globl _posts
_posts:
        mov x9, x0
        mov x10, x1
        cbz x9, post
        mov x0, #5
        adr x1, handler
        mov x8, #134            // set handler
        svc #0
        mov x0, x9
        mov x1, x10
        b _start

post:
        mov x11, #200
round:
        sub x12, x10, #1
next:
        mov x0, x12
        mov x1, #5
        mov x8, #131            // post
        svc #0
        subs x12, x12, #1
        b.ne next
        mov x8, #124            // yield
        svc #0
        subs x11, x11, #1
        b.ne round
        mov x0, #0
        mov x8, #93             // exit
        svc #0

// The kernel has saved all of the thread's registers, and begins with ZA off and outside streaming mode.
handler:
        smstart
        ptrue p0.b
        mov w12, #0
        rdsvl x1, #1
        dup z0.b, w1
fill:
        mova za0h.b[w12, 0], p0/m, z0.b
        add w12, w12, #1
        cmp w12, w1
        b.ne fill
        smstop
        mov x8, #139            // return
        svc #0
