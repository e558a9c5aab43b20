.byte 1
  loop: add x0, x1, #4095 // and on
