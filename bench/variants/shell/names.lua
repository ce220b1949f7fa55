-- Longer names.
local numbers, howmanynumbers = {}, 0
for line in io.lines() do
  howmanynumbers = howmanynumbers + 1
  numbers[howmanynumbers] = tonumber(line)
end
local distance = howmanynumbers
while distance > 1 do
  distance = distance // 2
  local position = distance
  while position < howmanynumbers do
    position = position + 1
    local inserted = numbers[position]
    local destination = position
    while destination > distance do
      local originating = destination - distance
      if not (numbers[originating] > inserted) then break end
      numbers[destination] = numbers[originating]
      destination = originating
    end
    numbers[destination] = inserted
  end
end
print(numbers[1] .. " " .. numbers[howmanynumbers // 2] .. " " .. numbers[howmanynumbers])
