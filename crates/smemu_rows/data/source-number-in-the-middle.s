add x0, x1, #4096, lsl #12
