_start: b nowhere
_start:
