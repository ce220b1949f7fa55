-- Tests in statements of their own.
local top = io.read("n")
local a = {}
for i = 1, top do a[i] = 1 end
local n, c = 1, 0
while true do
  if not (n < top) then break end
  n = n + 1
  if not (a[n] == 0) then
    c = c + 1
    local m = n * n
    while true do
      if m > top then break end
      a[m] = 0
      m = m + n
    end
  end
end
print(c)
