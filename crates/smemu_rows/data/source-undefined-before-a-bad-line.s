_start: b nowhere
frob
