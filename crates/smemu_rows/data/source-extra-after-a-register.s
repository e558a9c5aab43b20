br x1 x2
