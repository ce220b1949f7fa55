function perm(s, r,  i, k) {
  k = length(s)
  if (k == 0) { n++; last = r }
  for (i = 1; i <= k; i++) perm(substr(s, 1, i - 1) substr(s, i + 1), r substr(s, i, 1))
}
{ perm($0, ""); print n, last }
