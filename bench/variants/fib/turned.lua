-- GT with its sides changed, for LT.
local function fib(n)
  if 2 > n then return n end
  return fib(n - 1) + fib(n - 2)
end
local n = io.read("n")
print(fib(n))
