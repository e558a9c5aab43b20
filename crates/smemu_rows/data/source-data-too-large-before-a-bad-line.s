.data
.zero 4194304
.byte 0
.text
frob
