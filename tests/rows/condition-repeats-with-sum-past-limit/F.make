print("event e spacing 1 deadline 1 { " + "repeat 0 { " * 30 + "out 1, 1 + (1 + 1); " + "} " * 30 + "}")
