add w0, x1, #1
