local function encode(s)
  local out, i = {}, 1
  while i <= #s do
    local c = s:sub(i, i)
    local j = i + 1
    while s:sub(j, j) == c do j = j + 1 end
    out[#out + 1] = (j - i) .. c
    i = j
  end
  return table.concat(out)
end
local function decode(s)
  local out = {}
  for k, c in s:gmatch("(%d+)(.)") do out[#out + 1] = c:rep(tonumber(k)) end
  return table.concat(out)
end
local inn, out = 0, 0
for line in io.lines() do
  inn = inn + #line
  local e = encode(line)
  out = out + #e
  print(e)
  if decode(e) ~= line then print("wrong: " .. line) end
end
print(inn .. " bytes, " .. out .. " encoded")
