local digits = { [0] = "", "I", "II", "III", "IV", "V", "VI", "VII", "VIII", "IX" }
local up = { I = "X", V = "L", X = "C", L = "D", C = "M" }
local function roman(n)
  if n == "" then return "" end
  return roman(n:sub(1, -2)):gsub(".", up) .. digits[tonumber(n:sub(-1))]
end
local n, r = 0, ""
for line in io.lines() do r = roman(line); n = n + #r end
print(n .. " " .. r)
