_start: svc #00
