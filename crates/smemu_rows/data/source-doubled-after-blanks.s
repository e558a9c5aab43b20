  loop: add x0, x1, #4095 // and on
loop: svc #0
