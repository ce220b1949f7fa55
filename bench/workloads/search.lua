local n, s = 0, 0
for line in io.lines() do
  local b, e = line:find("ab.-cd.-ef.-gh")
  if b then n = n + 1; s = s + e - b + 1 end
end
print(n .. " " .. s)
