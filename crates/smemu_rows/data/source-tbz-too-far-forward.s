_start: tbz x0, #0, far
.zero 32764
far: svc #0
