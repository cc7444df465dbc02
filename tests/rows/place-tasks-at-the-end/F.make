print("int x = 0; " + "".join(f"task t{i} {{ out 1, x; }} " for i in range(17)))
