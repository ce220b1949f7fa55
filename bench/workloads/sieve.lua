local top = io.read("n")
local a, c = {}, 0
for n = 2, top do a[n] = true end
for n = 2, top do
  if a[n] then
    c = c + 1
    for m = n * n, top, n do a[m] = false end
  end
end
print(c)
