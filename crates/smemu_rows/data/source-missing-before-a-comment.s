add x0, x1, // sum
