print('tick,event,payload')
for tick in range(100001):
    print(f'{tick},e,0')
