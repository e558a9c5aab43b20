far: .zero 1048580
_start: adr x0, far
