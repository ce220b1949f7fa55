local t, n, d, m = {}, 0, 0, 0
for line in io.lines() do
  for w in line:gmatch("%l+") do n = n + 1; t[w] = (t[w] or 0) + 1 end
end
for _, c in pairs(t) do d = d + 1; if c > m then m = c end end
print(n .. " " .. d .. " " .. m)
