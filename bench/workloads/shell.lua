local a = {}
for line in io.lines() do a[#a + 1] = tonumber(line) end
local n = #a
local gap = n // 2
while gap >= 1 do
  for i = gap + 1, n do
    local x, j = a[i], i
    while j > gap and a[j - gap] > x do a[j] = a[j - gap]; j = j - gap end
    a[j] = x
  end
  gap = gap // 2
end
print(a[1] .. " " .. a[n // 2] .. " " .. a[n])
