local function factors(n)
  local out, d = "", 2
  while d * d <= n do
    local k = 0
    while n % d == 0 do
      n = n // d
      k = k + 1
    end
    if k > 0 then
      out = out .. " " .. d
      if k > 1 then out = out .. "^" .. k end
    end
    if d == 2 then d = 3 else d = d + 2 end
  end
  if n > 1 then out = out .. " " .. n end
  return out
end
local from = tonumber(io.read("l"))
local to = tonumber(io.read("l"))
for n = from, to do print(n .. ":" .. factors(n)) end
