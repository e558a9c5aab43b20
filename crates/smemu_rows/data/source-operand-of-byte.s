.byte x0
