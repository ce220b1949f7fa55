{
  n = most = depth = 0; start = 2; k = length($0)
  for (i = 2; i <= k; i++) {
    c = substr($0, i, 1)
    if (c == "(") depth++
    else if (c == ")" && i < k) depth--
    else if ((c == " " || i == k) && depth == 0) { n++; if (i - start > most) most = i - start; start = i + 1 }
  }
  print n, most
}
