local levels, lorder, hours, horder = {}, {}, {}, {}
local wrong, slow = 0, 0
local known = {INFO = true, WARN = true, ERROR = true, DEBUG = true}
for line in io.lines() do
  local day, when, hour, lv, unit, msg = line:match("^(%d%d%d%d%-%d%d%-%d%d) ((%d%d):%d%d:%d%d) %[(%u+)%] ([^:]*): (.*)$")
  if not day or not known[lv] then
    print("malformed: " .. line)
    wrong = wrong + 1
  else
    if not levels[lv] then levels[lv] = 0; lorder[#lorder + 1] = lv end
    levels[lv] = levels[lv] + 1
    if not hours[hour] then hours[hour] = 0; horder[#horder + 1] = hour end
    hours[hour] = hours[hour] + 1
    local show = lv == "ERROR"
    if not show then
      local ms = msg:match("took (%d+)ms")
      if ms and tonumber(ms) > 900 then slow = slow + 1; show = true end
    end
    if show then print(day .. " " .. when .. " " .. unit .. " " .. msg) end
  end
end
for _, k in ipairs(lorder) do print(k .. ": " .. levels[k]) end
for _, k in ipairs(horder) do print(k .. "h: " .. hours[k]) end
print(wrong .. " malformed, " .. slow .. " slow")
