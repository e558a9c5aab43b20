_start: svc #0
 b nowhere
