import re, sys
T = {"name": "Ada", "thing": "engine", "place": "London", "year": "1843"}
found = re.compile(r"\$([a-z]+)")
for line in sys.stdin:
    sys.stdout.write(found.sub(lambda m: T.get(m[1], ""), line))
