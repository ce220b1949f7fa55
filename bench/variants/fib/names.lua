-- Longer names.
local function fibonacci(whichnumber)
  if whichnumber < 2 then return whichnumber end
  return fibonacci(whichnumber - 1) + fibonacci(whichnumber - 2)
end
local whichnumber = io.read("n")
print(fibonacci(whichnumber))
