_start:
 svc #0
	svc2 #0
