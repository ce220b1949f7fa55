local function sorted(w)
  local t = {}
  for c in w:gmatch(".") do t[#t + 1] = c end
  table.sort(t)
  return table.concat(t)
end
local groups, sizes, order = {}, {}, {}
for w in io.lines() do
  local k = sorted(w)
  if not groups[k] then groups[k] = ""; sizes[k] = 0; order[#order + 1] = k end
  groups[k] = groups[k] .. " " .. w
  sizes[k] = sizes[k] + 1
end
for _, k in ipairs(order) do
  if sizes[k] > 1 then print(sizes[k] .. " " .. k .. ":" .. groups[k]) end
end
print(#order .. " groups")
