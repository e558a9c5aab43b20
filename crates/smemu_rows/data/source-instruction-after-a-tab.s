.byte 1
	cbz w7, done
