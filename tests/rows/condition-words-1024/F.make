print("".join(f"int v{i} = 0;" for i in range(1024)))
