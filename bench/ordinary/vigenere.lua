local alpha = "ABCDEFGHIJKLMNOPQRSTUVWXYZ"
local key = "LEMON"
local function crypt(text, sign)
  local out, p = {}, 0
  for i = 1, #text do
    local c = text:sub(i, i)
    local n = alpha:find(c, 1, true)
    if n then
      local k = alpha:find(key:sub(p + 1, p + 1), 1, true)
      p = (p + 1) % #key
      n = (n - 1 + sign * (k - 1) + 26) % 26
      c = alpha:sub(n + 1, n + 1)
    end
    out[#out + 1] = c
  end
  return table.concat(out)
end
local function caesar(text, shift)
  return (text:gsub("%u", function(c)
    local n = (c:byte() - 65 + shift) % 26
    return string.char(n + 65)
  end))
end
local i = 0
for line in io.lines() do
  line = line:upper()
  local x = crypt(line, 1)
  print(x)
  local y = crypt(x, -1)
  if y ~= line then print("wrong") end
  i = (i + 1) % 26
  print(caesar(line, i))
end
