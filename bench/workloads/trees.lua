local function tree(d)
  if d == 0 then return {} end
  return {tree(d - 1), tree(d - 1)}
end

local function nodes(t)
  if not t[1] then return 1 end
  return 1 + nodes(t[1]) + nodes(t[2])
end

local max = tonumber(io.read())
print("stretch tree of depth " .. max + 1 .. " nodes: " .. nodes(tree(max + 1)))
local long = tree(max)
for d = 4, max, 2 do
  local n, sum = 1 << max - d + 4, 0
  for _ = 1, n do sum = sum + nodes(tree(d)) end
  print(n .. " trees of depth " .. d .. " nodes: " .. sum)
end
print("long lived tree of depth " .. max .. " nodes: " .. nodes(long))
