function factor(  ok) {
  if (match(s, /^[0-9]+/)) { s = substr(s, RLENGTH + 1); return 1 }
  if (s !~ /^\(/) return 0
  s = substr(s, 2)
  ok = total() && s ~ /^\)/
  s = substr(s, 2)
  return ok
}
function product() {
  if (!factor()) return 0
  while (s ~ /^[*\/]/) { s = substr(s, 2); if (!factor()) return 0 }
  return 1
}
function total() {
  if (!product()) return 0
  while (s ~ /^[-+]/) { s = substr(s, 2); if (!product()) return 0 }
  return 1
}
{ s = $0; if (total() && s == "") yes++; else no++ }
END { print yes + 0, no + 0 }
