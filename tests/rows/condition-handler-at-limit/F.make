body = "out 1, 1; " * 498 + "post t; "
print("event e spacing 1 deadline 1 { repeat 1000 { " + body + "} " + body + "} task t { }")
