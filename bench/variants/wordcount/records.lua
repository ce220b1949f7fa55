-- Records of one field in place of integers.
local word = "%l+"
local t, n = {}, 0
for line in io.lines() do
  local at = 1
  while true do
    local from, to = line:find(word, at)
    if not from then break end
    local w = line:sub(from, to)
    at = to + 1
    n = n + 1
    if t[w] == nil then t[w] = { val = 0 } end
    t[w].val = t[w].val + 1
  end
end
local i, m = 0, 0
for _, c in pairs(t) do
  i = i + 1
  if c.val > m then m = c.val end
end
print(n .. " " .. i .. " " .. m)
