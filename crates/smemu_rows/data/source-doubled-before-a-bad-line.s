a: svc #0
a: svc #0
frob
