print("event e spacing 1 deadline 1 { " + "repeat 0 { " * 31 + "} " * 31 + "}")
