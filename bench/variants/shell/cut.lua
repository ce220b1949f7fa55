-- An element is fetched into a variable first.
local a, n = {}, 0
for line in io.lines() do
  n = n + 1
  a[n] = tonumber(line)
end
local gap = n
while gap > 1 do
  gap = gap // 2
  local i = gap
  while i < n do
    i = i + 1
    local x = a[i]
    local j = i
    while j > gap do
      local k = j - gap
      local y = a[k]
      if not (y > x) then break end
      a[j] = y
      j = k
    end
    a[j] = x
  end
end
print(a[1] .. " " .. a[n // 2] .. " " .. a[n])
