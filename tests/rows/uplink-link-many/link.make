print("step,n")
for _ in range(100001):
    print("send,0")
