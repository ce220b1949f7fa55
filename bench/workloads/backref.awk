{
  out = "none"; k = length($0) - 7
  for (i = 1; i <= k; i++) { x = substr($0, i, 4); if (index(substr($0, i + 4), x)) { out = x; break } }
  print out
}
