-- An element is fetched into a variable first.
local top = io.read("n")
local a = {}
for i = 1, top do a[i] = 1 end
local n, c = 1, 0
while n < top do
  n = n + 1
  local x = a[n]
  if not (x == 0) then
    c = c + 1
    local m = n * n
    while m <= top do
      a[m] = 0
      m = m + n
    end
  end
end
print(c)
