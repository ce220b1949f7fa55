local t = { name = "Ada", thing = "engine", place = "London", year = "1843" }
for line in io.lines() do print((line:gsub("%$(%l+)", function(k) return t[k] or "" end))) end
