-- GT with its sides changed, for LT.
local top = io.read("n")
local a = {}
for i = 1, top do a[i] = 1 end
local n, c = 1, 0
while top > n do
  n = n + 1
  if not (a[n] == 0) then
    c = c + 1
    local m = n * n
    while m <= top do
      a[m] = 0
      m = m + n
    end
  end
end
print(c)
