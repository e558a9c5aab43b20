        .text
        .globl  _start
_start: movz    x8, #93
        svc     #0
        .section .tdata, "awT", @progbits
value:  .word   1
