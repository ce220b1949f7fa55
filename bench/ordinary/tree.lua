local function insert(t, k)
  if not t then return {key = k, count = 1} end
  if t.key == k then t.count = t.count + 1
  elseif k < t.key then t.left = insert(t.left, k)
  else t.right = insert(t.right, k) end
  return t
end
local function walk(t)
  if not t then return end
  walk(t.left)
  print(t.key .. " " .. t.count)
  walk(t.right)
end
local function depth(t)
  if not t then return 0 end
  local l, r = depth(t.left), depth(t.right)
  if l > r then return l + 1 end
  return r + 1
end
local root
for w in io.lines() do root = insert(root, w) end
walk(root)
print("depth " .. depth(root))
