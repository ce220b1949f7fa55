-- An argument more, the depth of the call.
local n, last = 0, ""
local function perm(s, r, d)
  if s == "" then
    n = n + 1
    last = r
    return
  end
  local i = 0
  while i < #s do
    i = i + 1
    local t, c = s:sub(1, i - 1) .. s:sub(i + 1), s:sub(i, i)
    perm(t, r .. c, d + 1)
  end
end
perm(io.read(), "", 0)
print(n .. " " .. last)
