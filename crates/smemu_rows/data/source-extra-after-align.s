.align 2 3
