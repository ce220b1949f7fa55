-- Records of one field in place of integers.
local a, n = {}, 0
for line in io.lines() do
  n = n + 1
  a[n] = { val = tonumber(line) }
end
local gap = n
while gap > 1 do
  gap = gap // 2
  local i = gap
  while i < n do
    i = i + 1
    local x = a[i]
    local j = i
    while j > gap do
      local k = j - gap
      if not (a[k].val > x.val) then break end
      a[j] = a[k]
      j = k
    end
    a[j] = x
  end
end
print(a[1].val .. " " .. a[n // 2].val .. " " .. a[n].val)
