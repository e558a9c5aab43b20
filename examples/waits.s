// Thread 0 works for two million instructions, and then sets the first shared word; all others wait for it.
// Each look at the word is an event of the journal, which has room for 262,144: so a thread that waits yields after each look.
    .text
    .global _start
_start:
    mov x2, #0x7f0000000000
    mov x3, #1
    cbnz x0, wait
    mov x4, #0xf0000        // 983,040 rounds of two
work:
    subs x4, x4, #1
    b.ne work
    str x3, [x2]
    b done
wait:
    ldr x3, [x2]
    cbnz x3, done
    mov x8, #124            // yield
    svc #0
    b wait
done:
    mov x0, #0
    mov x8, #93             // exit
    svc #0
