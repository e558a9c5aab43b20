// exits
 movz x0, #1
 .word 0xdeadbeef
_start: movz x8, #93
 svc #0
.byte 0xaa, 0xbb
.data
.byte 104, 101, 108, 108, 111
