        .text
        .globl  helper
helper: ret
