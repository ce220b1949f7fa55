-- Longer names.
local onewholeword = "%l+"
local frequencies, howmanywords = {}, 0
for wholeline in io.lines() do
  local startingplace = 1
  while true do
    local firstletter, lastletter = wholeline:find(onewholeword, startingplace)
    if not firstletter then break end
    local foundword = wholeline:sub(firstletter, lastletter)
    startingplace = lastletter + 1
    howmanywords = howmanywords + 1
    frequencies[foundword] = (frequencies[foundword] or 0) + 1
  end
end
local whichentry, highestfrequency = 0, 0
for _, frequency in pairs(frequencies) do
  whichentry = whichentry + 1
  if frequency > highestfrequency then highestfrequency = frequency end
end
print(howmanywords .. " " .. whichentry .. " " .. highestfrequency)
