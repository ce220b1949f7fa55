-- GT with its sides changed, for LT.
local n, last = 0, ""
local function perm(s, r)
  if s == "" then
    n = n + 1
    last = r
    return
  end
  local i = 0
  while #s > i do
    i = i + 1
    local t, c = s:sub(1, i - 1) .. s:sub(i + 1), s:sub(i, i)
    perm(t, r .. c)
  end
end
perm(io.read(), "")
print(n .. " " .. last)
