_start: svc #0

frob
frab
