-- Null and IDENT in place of 0 and EQ.
local top = io.read("n")
local a = {}
for i = 1, top do a[i] = "" end
local n, c = 1, 0
while n < top do
  n = n + 1
  if a[n] == "" then
    c = c + 1
    local m = n * n
    while m <= top do
      a[m] = 1
      m = m + n
    end
  end
end
print(c)
