-- What bench/workloads/roman.sno does, statement by statement.
local digits = { [0] = "", "I", "II", "III", "IV", "V", "VI", "VII", "VIII", "IX" }
local up = { I = "X", V = "L", X = "C", L = "D", C = "M" }
local function roman(n)
  if n == "" then return "" end
  local t = n:sub(-1)
  n = n:sub(1, -2)
  return roman(n):gsub(".", up) .. digits[tonumber(t)]
end
local n, r = 0, ""
for line in io.lines() do
  r = roman(line)
  n = n + #r
end
print(n .. " " .. r)
