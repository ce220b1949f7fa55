-- What bench/workloads/fib.sno does, statement by statement.
local function fib(n)
  if n < 2 then return n end
  return fib(n - 1) + fib(n - 2)
end
local n = io.read("n")
print(fib(n))
