_start: svc #
