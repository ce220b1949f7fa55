BEGIN { t["name"] = "Ada"; t["thing"] = "engine"; t["place"] = "London"; t["year"] = 1843 }
{
  out = ""; s = $0
  while (match(s, /\$[a-z]+/)) {
    out = out substr(s, 1, RSTART - 1) t[substr(s, RSTART + 1, RLENGTH - 1)]
    s = substr(s, RSTART + RLENGTH)
  }
  print out s
}
