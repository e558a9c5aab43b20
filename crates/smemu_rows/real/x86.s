        .text
        .globl  _start
_start: mov     $60, %eax
        syscall
