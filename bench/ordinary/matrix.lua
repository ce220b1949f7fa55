local n = tonumber(io.read("l"))
local a, b, c = {}, {}, {}
for i = 1, n do
  a[i], b[i], c[i] = {}, {}, {}
  for j = 1, n do
    a[i][j] = i * j % 7 - 3
    b[i][j] = (i + j) % 5 - 2
  end
end
for i = 1, n do
  for j = 1, n do
    local sum = 0
    for k = 1, n do sum = sum + a[i][k] * b[k][j] end
    c[i][j] = sum
  end
end
for i = 1, n do print(table.concat(c[i], " ")) end
