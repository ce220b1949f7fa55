{
  for (n = 2; n <= $1; n++) {
    if (n in a) continue
    c++
    for (m = n * n; m <= $1; m += n) a[m]
  }
  print c
}
