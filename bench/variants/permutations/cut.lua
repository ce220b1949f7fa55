-- An argument is joined in a statement before the call.
local n, last = 0, ""
local function perm(s, r)
  if s == "" then
    n = n + 1
    last = r
    return
  end
  local i = 0
  while i < #s do
    i = i + 1
    local t, c = s:sub(1, i - 1) .. s:sub(i + 1), s:sub(i, i)
    local u = r .. c
    perm(t, u)
  end
end
perm(io.read(), "")
print(n .. " " .. last)
