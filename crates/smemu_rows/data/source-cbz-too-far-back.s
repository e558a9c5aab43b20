far: .zero 1048580
_start: cbz x0, far
