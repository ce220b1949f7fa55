import re, sys
whole = re.compile("(?:([a-z])|Z)*").fullmatch
for line in sys.stdin:
    m = whole(line.rstrip("\n"))
    print(m[1] if m else "no")
