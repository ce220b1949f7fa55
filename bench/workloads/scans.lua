local n, s = 0, 0
for line in io.lines() do for w in line:gmatch("%l+") do n = n + 1; s = s + #w end end
print(n .. " " .. s)
