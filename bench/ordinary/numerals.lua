local sign, worth, value = {}, {}, {}
for v, c in ("1000M,900CM,500D,400CD,100C,90XC,50L,40XL,10X,9IX,5V,4IV,1I,"):gmatch("(%d+)(%u+),") do
  sign[#sign + 1] = c
  worth[#worth + 1] = tonumber(v)
  value[c] = tonumber(v)
end
local function roman(n)
  local out = ""
  for i = 1, 13 do
    while n >= worth[i] do
      out = out .. sign[i]
      n = n - worth[i]
    end
  end
  return out
end
local function number(r)
  local n, w = 0, 0
  for i = #r, 1, -1 do
    local v = value[r:sub(i, i)]
    if v < w then n = n - v
    else n = n + v; w = v end
  end
  return n
end
local max = tonumber(io.read("l"))
for n = 1, max do
  local r = roman(n)
  print(n .. " " .. r)
  if number(r) ~= n then print("wrong") break end
end
