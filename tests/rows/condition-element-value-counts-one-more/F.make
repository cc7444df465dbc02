print("int a[1]; event e spacing 1 deadline 1 { " + "repeat 0 { " * 30 + "a[0] = 1 + 1; " + "} " * 30 + "}")
