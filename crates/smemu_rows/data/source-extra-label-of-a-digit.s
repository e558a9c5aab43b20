1loop: svc #0
