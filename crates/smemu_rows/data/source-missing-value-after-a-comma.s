.byte 1,
