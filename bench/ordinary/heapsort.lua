local a = {}
local function sift(i, n)
  local x = a[i]
  while true do
    local j = 2 * i
    if j > n then break end
    if j < n and a[j] < a[j + 1] then j = j + 1 end
    if x >= a[j] then break end
    a[i] = a[j]
    i = j
  end
  a[i] = x
end
local n = tonumber(io.read("l"))
local seed = 42
for i = 1, n do
  seed = (seed * 1103515245 + 12345) % 2147483648
  a[i] = seed // 1000
end
for k = n // 2, 1, -1 do sift(k, n) end
for k = n, 2, -1 do
  a[1], a[k] = a[k], a[1]
  sift(1, k - 1)
end
for i = 1, n - 1 do
  if a[i] > a[i + 1] then print("not sorted") os.exit() end
end
for i = 1, n do print(a[i]) end
