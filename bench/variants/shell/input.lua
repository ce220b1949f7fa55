-- The input stays text, which is converted where it is compared.
local a, n = {}, 0
for line in io.lines() do
  n = n + 1
  a[n] = line
end
local gap = n
while gap > 1 do
  gap = gap // 2
  local i = gap
  while i < n do
    i = i + 1
    local x = a[i]
    local j = i
    while j > gap do
      local k = j - gap
      if not (tonumber(a[k]) > tonumber(x)) then break end
      a[j] = a[k]
      j = k
    end
    a[j] = x
  end
end
print(a[1] .. " " .. a[n // 2] .. " " .. a[n])
