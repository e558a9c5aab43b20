add x0, x32, #1
