local n, last = 0, ""
local function perm(s, r)
  if s == "" then n = n + 1; last = r end
  for i = 1, #s do perm(s:sub(1, i - 1) .. s:sub(i + 1), r .. s:sub(i, i)) end
end
perm(io.read(), "")
print(n .. " " .. last)
