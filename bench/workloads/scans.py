import re, sys
n = s = 0
for line in sys.stdin:
    for w in re.findall("[a-z]+", line):
        n += 1
        s += len(w)
print(n, s)
