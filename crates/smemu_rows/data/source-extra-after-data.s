.data x
