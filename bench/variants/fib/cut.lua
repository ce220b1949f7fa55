-- The sum in two statements.
local function fib(n)
  if n < 2 then return n end
  local f = fib(n - 1)
  return f + fib(n - 2)
end
local n = io.read("n")
print(fib(n))
