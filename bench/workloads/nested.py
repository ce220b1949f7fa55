import sys
for line in sys.stdin:
    n = most = depth = start = 0
    inner = line.rstrip("\n")[1:-1] + " "
    for at, letter in enumerate(inner):
        if letter == "(":
            depth += 1
        elif letter == ")":
            depth -= 1
        elif letter == " " and depth == 0:
            n += 1
            most = max(most, at - start)
            start = at + 1
    print(n, most)
