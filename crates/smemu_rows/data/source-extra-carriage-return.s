_start: svc #0
