_start: cbz x0, far
.zero 1048572
far: svc #0
