-- An argument more, the depth of the call.
local function fib(n, d)
  if n < 2 then return n end
  return fib(n - 1, d + 1) + fib(n - 2, d + 1)
end
local n = io.read("n")
print(fib(n, 1))
