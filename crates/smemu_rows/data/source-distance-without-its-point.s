b 8
