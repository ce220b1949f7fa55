local counts, total = {}, 0
for line in io.lines() do
  for w in line:lower():gmatch("%l+") do
    counts[w] = (counts[w] or 0) + 1
    total = total + 1
  end
end
local list = {}
for w, c in pairs(counts) do list[#list + 1] = {w, c} end
table.sort(list, function(a, b)
  if a[2] ~= b[2] then return a[2] > b[2] end
  return a[1] < b[1]
end)
for _, e in ipairs(list) do print(string.format("%6d %s", e[2], e[1])) end
print(total .. " words, " .. #list .. " different")
