_start: svc #0 #1
