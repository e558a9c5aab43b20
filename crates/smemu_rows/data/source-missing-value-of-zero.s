.zero
