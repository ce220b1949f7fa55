import collections, re, sys
counts = collections.Counter()
for line in sys.stdin:
    counts.update(re.findall("[a-z]+", line))
print(sum(counts.values()), len(counts), max(counts.values()))
