local s, pos
local expr
local function factor()
  local d = s:match("^%d+", pos)
  if d then pos = pos + #d; return tonumber(d) end
  local c = s:sub(pos, pos)
  if c == "-" then
    pos = pos + 1
    local v = factor()
    return v and -v
  end
  if c ~= "(" then return nil end
  pos = pos + 1
  local v = expr()
  if not v or s:sub(pos, pos) ~= ")" then return nil end
  pos = pos + 1
  return v
end
local function div(a, b)
  local q = a // b
  if q < 0 and q * b ~= a then q = q + 1 end
  return q
end
local function term()
  local v = factor()
  if not v then return nil end
  while true do
    local op = s:match("^[*/]", pos)
    if not op then return v end
    pos = pos + 1
    local r = factor()
    if not r then return nil end
    if op == "*" then v = v * r else v = div(v, r) end
  end
end
function expr()
  local v = term()
  if not v then return nil end
  while true do
    local op = s:match("^[+-]", pos)
    if not op then return v end
    pos = pos + 1
    local r = term()
    if not r then return nil end
    if op == "+" then v = v + r else v = v - r end
  end
end
for line in io.lines() do
  s, pos = line, 1
  local v = expr()
  if v and pos > #s then print(line .. " = " .. v)
  else print(line .. " is wrong at " .. s:sub(pos)) end
end
