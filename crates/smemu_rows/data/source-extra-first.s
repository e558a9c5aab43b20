_start: svc #0
5
