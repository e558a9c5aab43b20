far: .zero 32772
_start: tbz x0, #0, far
