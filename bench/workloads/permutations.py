def perm(s, r):
    global n, last
    if not s:
        n += 1
        last = r
    for i, c in enumerate(s):
        perm(s[:i] + s[i + 1 :], r + c)
n, last = 0, ""
perm(input(), "")
print(n, last)
