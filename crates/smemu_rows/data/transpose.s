// Writes a table of 19 rows and 23 columns of characters with its columns as lines. A block is loaded into ZA row by row, and stored column
// by column: as many rows and columns as ZA has at this length, fewer at the edges. Below the table stands a row of line feeds, with which
// the lines end.
    .text
    .global _start
_start:
    adr x1, table
    mov x2, #437            // the characters of the table
    mov w3, #33
fill:
    strb w3, [x1], #1
    add w3, w3, #1
    cmp w3, #127            // past the last character
    b.ne same
    mov w3, #33
same:
    subs x2, x2, #1
    b.ne fill

    smstart
    adr x1, table
    adr x2, lines
    mov x10, #20            // the rows of the table and of line feeds
    mov x11, #23            // their columns
    mov x20, #0             // the first row of the block
rows:
    whilelt p0.b, x20, x10
    mov x21, #0             // the first column of the block
columns:
    whilelt p1.b, x21, x11
    madd x3, x20, x11, x21  // the place of the block's first character in the table
    madd x4, x21, x10, x20  // that in the lines
    cntp x5, p0, p0.b       // its rows
    cntp x6, p1, p1.b       // its columns
    mov w12, #0
load:
    ld1b {za0h.b[w12, 0]}, p1/z, [x1, x3]
    add x3, x3, x11
    add w12, w12, #1
    cmp x12, x5
    b.ne load
    mov w12, #0
store:
    st1b {za0v.b[w12, 0]}, p0, [x2, x4]
    add x4, x4, x10
    add w12, w12, #1
    cmp x12, x6
    b.ne store
    incb x21, all
    cmp x21, x11
    b.cc columns
    incb x20, all
    cmp x20, x10
    b.cc rows
    smstop

    mov x0, #1              // standard output
    adr x1, lines
    mov x2, #460            // their length in bytes
    mov x8, #64             // write
    svc #0
    mov x0, #0
    mov x8, #93             // exit
    svc #0

    .data
table:
    .zero 437
    .byte 10, 10, 10, 10, 10, 10, 10, 10, 10, 10, 10, 10, 10, 10, 10, 10, 10, 10, 10, 10, 10, 10, 10
lines:
    .zero 460
