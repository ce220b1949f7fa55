{ a[++n] = $1 + 0 }
END {
  for (gap = int(n / 2); gap >= 1; gap = int(gap / 2))
    for (i = gap + 1; i <= n; i++) {
      x = a[i]
      for (j = i; j > gap && a[j - gap] > x; j -= gap) a[j] = a[j - gap]
      a[j] = x
    }
  print a[1], a[int(n / 2)], a[n]
}
