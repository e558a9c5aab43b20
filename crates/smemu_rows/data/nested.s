// Two handlers each add products to a sum in memory, by way of ZA: each loads the sum into ZA, adds its own products there, and stores the sum again.
// While the first one is at work the second signal comes, whose handler is to add 8. If it begins between the load and the store of the first, what it
// adds is lost, as the first one stores a sum that it loaded before: the program exits with 20. So the first handler masks the second signal; that one
// then waits until the first handler has returned, and the program exits with 28. ZA itself is kept for each of them.
    .text
    .global _start
_start:
    mov x0, #5
    adr x1, first
    mov x8, #134            // set handler
    svc #0
    mov x0, #6
    adr x1, second
    svc #0
    mov x0, #0              // to this thread
    mov x1, #5
    mov x8, #131            // post
    svc #0
    adr x9, sum
wait:
    ldr x2, [x9, #8]        // how many handlers have stored a sum
    cmp x2, #2
    b.ne wait
    ldr w0, [x9]
    mov x8, #93             // exit
    svc #0

first:
    bl mask_second
    bl load
    mov w3, #5
    bl multiply
    mov x0, #0
    mov x1, #6
    mov x8, #131            // post: there is something for the second one
    svc #0
    mov x10, #600           // the work of the first one takes more than a slice
work:
    sub x10, x10, #1
    cbnz x10, work
    bl store
    mov x8, #139            // return, by the frame at SP
    svc #0

second:
    bl load
    mov w3, #2
    bl multiply
    bl store
    mov x8, #139
    svc #0

mask_second:                // for this handler alone: the return gives back the mask that was before it
    mov x0, #0              // put into the mask
    mov x1, #64             // the bit of signal 6
    mov x8, #135            // set mask
    svc #0
    ret

load:                       // loads the sum into the first row of tile 0
    smstart za
    mov w12, #0
    adr x9, sum
    ldr za[w12, 0], [x9]
    ret

multiply:                   // adds four products of 1 and W3 to each element of tile 0
    smstart sm
    ptrue p0.b, all
    dup z0.b, #1
    dup z1.b, w3
    smopa za0.s, p0/m, p0/m, z0.b, z1.b
    smstop sm
    ret

store:                      // stores the first element of tile 0 as the sum
    adr x9, row
    str za[w12, 0], [x9]
    ldr w4, [x9]
    adr x9, sum
    str w4, [x9]
    ldr x4, [x9, #8]
    add x4, x4, #1
    str x4, [x9, #8]
    ret

    .data
sum:
    .quad 0, 0
    .zero 240
row:
    .zero 256
