-- The test in a statement of its own.
local function fib(n)
  if not (n < 2) then return fib(n - 1) + fib(n - 2) end
  return n
end
local n = io.read("n")
print(fib(n))
