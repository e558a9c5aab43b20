.zero 1, 2
