_start: svc #0
_start: .zero 5000000
