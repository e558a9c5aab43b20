_start: svc #65536
