.byte #1
