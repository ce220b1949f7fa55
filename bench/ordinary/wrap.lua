local width, out, lines = 60, "", 0
for line in io.lines() do
  if not line:find("%S") then
    if out ~= "" then print(out) end
    out = ""
    print()
  else
    for w in line:gmatch("[^ ]+") do
      if #out + #w + 1 > width then
        print(out)
        lines = lines + 1
        out = w
      elseif out ~= "" then out = out .. " " .. w
      else out = w end
    end
  end
end
if out ~= "" then print(out) end
print(lines .. " lines were filled")
