function tree(d,  t) {
  t = ++made
  if (d > 0) { left[t] = tree(d - 1); right[t] = tree(d - 1) }
  return t
}
function nodes(t,  l, r) {
  if (!(t in left)) return 1
  l = left[t]; r = right[t]
  return 1 + nodes(l) + nodes(r)
}
function drop(t) {
  if (t in left) { drop(left[t]); drop(right[t]); delete left[t]; delete right[t] }
}
function counted(d,  t, n) {
  t = tree(d); n = nodes(t)
  drop(t)
  return n
}
{
  max = $1 + 0
  print "stretch tree of depth", max + 1, "nodes:", counted(max + 1)
  long = tree(max)
  for (d = 4; d <= max; d += 2) {
    n = 2 ^ (max - d + 4); sum = 0
    for (i = 0; i < n; i++) sum += counted(d)
    print n, "trees of depth", d, "nodes:", sum
  }
  print "long lived tree of depth", max, "nodes:", nodes(long)
}
