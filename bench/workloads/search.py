import re, sys
find = re.compile("ab.*?cd.*?ef.*?gh").search
n = s = 0
for line in sys.stdin:
    m = find(line)
    if m:
        n += 1
        s += m.end() - m.start()
print(n, s)
