local sum
local function factor(s, at)
  local _, e = s:find("^%d+", at)
  if e then return e + 1 end
  if s:byte(at) ~= 40 then return nil end
  at = sum(s, at + 1)
  return at and s:byte(at) == 41 and at + 1 or nil
end
local function product(s, at)
  at = factor(s, at)
  while at and s:find("^[*/]", at) do at = factor(s, at + 1) end
  return at
end
function sum(s, at)
  at = product(s, at)
  while at and s:find("^[+-]", at) do at = product(s, at + 1) end
  return at
end
local yes, no = 0, 0
for line in io.lines() do
  if sum(line, 1) == #line + 1 then yes = yes + 1 else no = no + 1 end
end
print(yes .. " " .. no)
