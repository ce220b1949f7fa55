import re, sys
find = re.compile(r"(.{4}).*?\1").search
for line in sys.stdin:
    m = find(line)
    print(m[1] if m else "none")
