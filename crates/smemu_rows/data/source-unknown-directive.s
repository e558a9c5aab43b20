_start: svc #0
  .long 1
