.align -1
