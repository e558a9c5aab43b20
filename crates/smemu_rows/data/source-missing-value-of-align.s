.align
