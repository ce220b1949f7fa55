{
  x = ""; ok = 1; k = length($0)
  for (i = 1; i <= k; i++) { c = substr($0, i, 1); if (c ~ /[a-z]/) x = c; else if (c != "Z") { ok = 0; break } }
  print ok ? x : "no"
}
