{
  a = index($0, "ab"); if (!a) next
  rest = substr($0, a + 2); k = 2
  c = index(rest, "cd"); if (!c) next
  rest = substr(rest, c + 2); k += c + 1
  e = index(rest, "ef"); if (!e) next
  rest = substr(rest, e + 2); k += e + 1
  g = index(rest, "gh"); if (!g) next
  n++; s += k + g + 1
}
END { print n + 0, s + 0 }
