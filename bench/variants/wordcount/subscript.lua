-- The key of an entry is reckoned in its subscript.
local word = "%l+"
local t, n = {}, 0
for line in io.lines() do
  local at = 1
  while true do
    local from, to = line:find(word, at)
    if not from then break end
    local w = line:sub(from, to)
    at = to + 1
    n = n + 1
    t["." .. w] = (t["." .. w] or 0) + 1
  end
end
local i, m = 0, 0
for _, c in pairs(t) do
  i = i + 1
  if c > m then m = c end
end
print(n .. " " .. i .. " " .. m)
