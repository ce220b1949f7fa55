-- Longer names.
local greatest = io.read("n")
local candidates = {}
for i = 1, greatest do candidates[i] = 1 end
local candidate, howmanyprimes = 1, 0
while candidate < greatest do
  candidate = candidate + 1
  if not (candidates[candidate] == 0) then
    howmanyprimes = howmanyprimes + 1
    local multiple = candidate * candidate
    while multiple <= greatest do
      candidates[multiple] = 0
      multiple = multiple + candidate
    end
  end
end
print(howmanyprimes)
