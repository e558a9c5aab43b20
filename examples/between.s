// A handler adds 1 to the word to which the program adds 1 too, by a load and a store. The program waits for it, and exits with the word, which is to be 2:
// but where the signal comes between the load and the store, what the handler added is lost.
    .text
    .global _start
_start:
    mov x0, #5              // the signal
    adr x1, handler
    mov x8, #134            // set handler
    svc #0
    mov x0, #0              // to this thread
    mov x1, #5
    mov x8, #131            // post
    svc #0
    adr x1, word
    ldr x2, [x1]
    add x2, x2, #1
    str x2, [x1]
wait:
    ldr x3, [x1, #8]
    cbz x3, wait
    ldr x0, [x1]
    mov x8, #93             // exit
    svc #0

handler:
    adr x1, word
    ldr x2, [x1]
    add x2, x2, #1
    str x2, [x1]
    str x0, [x1, #8]        // it has been here
    mov x8, #139            // return, by the frame at SP
    svc #0

    .data
word:
    .quad 0, 0
