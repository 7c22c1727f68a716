def run(n):
    total = 0
    for row in range(1, n + 1):
        ci = row % 16 * 32
        for column in range(1, 9):
            cr = column * 64 - 512
            zr = zi = steps = 0
            while steps < 12 and zr * zr + zi * zi < 262144:
                t = zr * zr - zi * zi
                zi = int(zr * zi / 128) + ci
                zr = int(t / 256) + cr
                steps = steps + 1
            total = total + steps
    return total
