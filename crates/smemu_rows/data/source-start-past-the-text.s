svc #0
_start:
