print("int x = 0; task t { out 1, x; } " + "".join(f"event e{i} spacing 1 deadline 1 {{ out 1, x; }} " for i in range(17)))
