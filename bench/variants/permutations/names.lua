-- Longer names.
local howmanyorders, lastorder = 0, ""
local function permuted(lettersleft, lettersbefore)
  if lettersleft == "" then
    howmanyorders = howmanyorders + 1
    lastorder = lettersbefore
    return
  end
  local position = 0
  while position < #lettersleft do
    position = position + 1
    local remaining, character = lettersleft:sub(1, position - 1) .. lettersleft:sub(position + 1), lettersleft:sub(position, position)
    permuted(remaining, lettersbefore .. character)
  end
end
permuted(io.read(), "")
print(howmanyorders .. " " .. lastorder)
