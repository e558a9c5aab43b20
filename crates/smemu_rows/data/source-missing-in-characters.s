add x0, x1, // é一
