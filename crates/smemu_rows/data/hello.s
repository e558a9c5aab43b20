// Writes a line, whose bytes stand in the data.
    .text
    .global _start
_start:
    mov x0, #1              // standard output
    adr x1, message
    mov x2, #13             // its length in bytes
    mov x8, #64             // write
    svc #0
    mov x0, #0
    mov x8, #93             // exit
    svc #0

    .data
message:
    .byte 72, 101, 108, 108, 111, 44, 32, 83, 77, 69, 33, 33, 10   // "Hello, SME!!" and a line feed
