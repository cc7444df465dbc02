print("".join(f"task t{i} {{ }}" for i in range(18)))
