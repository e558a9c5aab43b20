far: .zero 1048580
_start: b.eq far
