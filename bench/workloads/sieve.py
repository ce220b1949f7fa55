top = int(input())
a = [1] * (top + 1)
c = 0
for n in range(2, top + 1):
    if a[n]:
        c += 1
        m = n * n
        while m <= top:
            a[m] = 0
            m += n
print(c)
