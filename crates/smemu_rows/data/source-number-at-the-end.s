add x0, x1, #1, lsl #13
