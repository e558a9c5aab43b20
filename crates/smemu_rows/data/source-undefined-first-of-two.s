_start: svc #0
.quad nowhere
 b nowhere
