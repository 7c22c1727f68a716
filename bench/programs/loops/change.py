def run(n):
    coins = [1, 5, 10, 25]
    x = 0
    for i in range(1, n + 1):
        ways = [1]
        for k in range(1, 51):
            ways.append(0)
        for coin in coins:
            for sum in range(coin, 51):
                ways[sum] = ways[sum] + ways[sum - coin]
        x = x + ways[50]
    return x
