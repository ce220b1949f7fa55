import sys
a = [0] + [int(line) for line in sys.stdin]
n = len(a) - 1
gap = n // 2
while gap:
    for i in range(gap + 1, n + 1):
        x, j = a[i], i
        while j > gap and a[j - gap] > x:
            a[j] = a[j - gap]
            j -= gap
        a[j] = x
    gap //= 2
print(a[1], a[n // 2], a[n])
