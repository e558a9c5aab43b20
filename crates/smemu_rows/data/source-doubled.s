_start: svc #0
_start:
