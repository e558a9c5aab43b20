a: b: svc #0
