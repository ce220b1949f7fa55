-- LT with its sides changed, for GT.
local a, n = {}, 0
for line in io.lines() do
  n = n + 1
  a[n] = tonumber(line)
end
local gap = n
while 1 < gap do
  gap = gap // 2
  local i = gap
  while i < n do
    i = i + 1
    local x = a[i]
    local j = i
    while gap < j do
      local k = j - gap
      if not (x < a[k]) then break end
      a[j] = a[k]
      j = k
    end
    a[j] = x
  end
end
print(a[1] .. " " .. a[n // 2] .. " " .. a[n])
