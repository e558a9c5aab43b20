.zero 4194304
_start: svc #0
