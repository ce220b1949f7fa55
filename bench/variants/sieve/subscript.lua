-- The place of an element is reckoned in its subscript.
local top = io.read("n")
local a = {}
for i = 1, top - 1 do a[i] = 1 end
local n, c = 1, 0
while n < top do
  n = n + 1
  if not (a[n - 1] == 0) then
    c = c + 1
    local m = n * n
    while m <= top do
      a[m - 1] = 0
      m = m + n
    end
  end
end
print(c)
