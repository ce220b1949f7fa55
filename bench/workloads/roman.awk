function roman(n,  r, k, i, out) {
  if (n == "") return ""
  k = length(n)
  r = roman(substr(n, 1, k - 1))
  out = ""
  for (i = 1; i <= length(r); i++) out = out up[substr(r, i, 1)]
  return out digit[substr(n, k, 1) + 1]
}
BEGIN {
  split(",I,II,III,IV,V,VI,VII,VIII,IX", digit, ",")
  up["I"] = "X"; up["V"] = "L"; up["X"] = "C"; up["L"] = "D"; up["C"] = "M"
}
{ r = roman($0); n += length(r) }
END { print n, r }
