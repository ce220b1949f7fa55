local sums, count, order, lines = {}, {}, {}, 0
local function add(k, v)
  if not sums[k] then order[#order + 1] = k; sums[k] = 0 end
  sums[k] = sums[k] + v
end
io.read("l")
for line in io.lines() do
  lines = lines + 1
  local date, region, product, units, price = line:match("^([^,]*),([^,]*),([^,]*),([^,]*),(.*)$")
  local key = region .. "/" .. product
  local amount = math.tointeger(tonumber(units) * tonumber(price))
  add(key, amount)
  count[key] = (count[key] or 0) + 1
  local year = date:match("^([^-]*)-")
  add(year, amount)
  if amount > 9000 then
    print("large: " .. date .. " " .. region .. " " .. product .. " " .. amount)
  end
end
for _, k in ipairs(order) do print(k .. "," .. (count[k] or "") .. "," .. sums[k]) end
print(lines .. " lines")
