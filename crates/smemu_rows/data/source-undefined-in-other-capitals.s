_start: b Loop
loop: svc #0
