def tree(d):
    return (tree(d - 1), tree(d - 1)) if d else (None, None)


def nodes(t):
    left, right = t
    return 1 + nodes(left) + nodes(right) if left else 1


top = int(input())
print("stretch tree of depth", top + 1, "nodes:", nodes(tree(top + 1)))
long = tree(top)
for d in range(4, top + 1, 2):
    n = 1 << top - d + 4
    print(n, "trees of depth", d, "nodes:", sum(nodes(tree(d)) for _ in range(n)))
print("long lived tree of depth", top, "nodes:", nodes(long))
