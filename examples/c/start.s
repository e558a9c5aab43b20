// The entry of a program of C: calls main, and exits with what it returns.
// X0 and X1 are as they start, the thread's number and the number of threads, so they are the arguments of main. Nothing stands above SP.
// The stack is the kernel's, of 262,144 bytes, at whose end a store raises data; with -Wa,--defsym,STACK=N it is one of N bytes in .bss, a multiple
// of 16, and what is stored past its end changes other variables.
        .text
        .globl _start
_start:
.ifdef STACK
        adrp x9, stack_end
        add x9, x9, :lo12:stack_end
        mov sp, x9
.endif
        bl main
        mov x8, #93             // exit; 94, exit_group, is not there
        svc #0

.ifdef STACK
        .bss
        .p2align 4
        .zero STACK
stack_end:
.endif
