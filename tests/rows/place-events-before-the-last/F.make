print("".join(f"event e{i} spacing 1 deadline 1 {{ }}" for i in range(18)))
