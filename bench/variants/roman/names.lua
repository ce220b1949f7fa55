-- Longer names.
local digits = { [0] = "", "I", "II", "III", "IV", "V", "VI", "VII", "VIII", "IX" }
local up = { I = "X", V = "L", X = "C", L = "D", C = "M" }
local function romannumeral(arabicnumber)
  if arabicnumber == "" then return "" end
  local lastdigit = arabicnumber:sub(-1)
  arabicnumber = arabicnumber:sub(1, -2)
  return romannumeral(arabicnumber):gsub(".", up) .. digits[tonumber(lastdigit)]
end
local arabicnumber, resulting = 0, ""
for wholeline in io.lines() do
  resulting = romannumeral(wholeline)
  arabicnumber = arabicnumber + #resulting
end
print(arabicnumber .. " " .. resulting)
