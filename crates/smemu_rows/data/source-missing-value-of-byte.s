.byte
