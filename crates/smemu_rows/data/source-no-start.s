begin: svc #0
