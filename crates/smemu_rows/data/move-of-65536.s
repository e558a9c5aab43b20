_start:
    mov x0, #65536
