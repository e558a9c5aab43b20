_start: SVC #0
