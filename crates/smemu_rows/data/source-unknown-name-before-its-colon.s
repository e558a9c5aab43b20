loop : svc #0
