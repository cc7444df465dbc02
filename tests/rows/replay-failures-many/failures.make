print('tick,fill')
for tick in range(100001):
    print(f'{tick},00')
