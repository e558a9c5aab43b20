_start: svc #0
add x0, x1,