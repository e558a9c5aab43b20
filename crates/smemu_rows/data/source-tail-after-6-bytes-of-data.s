_start: svc #0
.data
.zero 6
  .sme_tail // of no call
