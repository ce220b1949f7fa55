import re, sys
def factor(s, at):
    found = digits(s, at)
    if found:
        return found.end()
    if s[at] != "(":
        return None
    at = total(s, at + 1)
    return at + 1 if at is not None and s[at] == ")" else None
def product(s, at):
    at = factor(s, at)
    while at is not None and s[at] in "*/":
        at = factor(s, at + 1)
    return at
def total(s, at):
    at = product(s, at)
    while at is not None and s[at] in "+-":
        at = product(s, at + 1)
    return at
digits = re.compile("[0-9]+").match
yes = no = 0
for line in sys.stdin:
    at = total(line, 0)
    if at is not None and line[at] == "\n":
        yes += 1
    else:
        no += 1
print(yes, no)
