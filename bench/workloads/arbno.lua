for line in io.lines() do
  local x, ok = "", true
  for c in line:gmatch(".") do
    if c:find("%l") then x = c elseif c ~= "Z" then ok = false; break end
  end
  print(ok and x or "no")
end
