body = "out 1, 1; " * 498 + "post t; "
rest = "if true { " + "out 1, 1; " * 496 + "post t; } out 1, 1; "
print("event e spacing 1 deadline 1 { repeat 1000 { " + body + "} " + rest + "} task t { }")
