_start:
