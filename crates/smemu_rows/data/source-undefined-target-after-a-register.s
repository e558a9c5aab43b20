_start: svc #0
	cbz w7, done
