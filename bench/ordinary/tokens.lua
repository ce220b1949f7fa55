local keys = {}
for w in ("if then else while do end return function local"):gmatch("%a+") do keys[w] = true end
local n = {}
local row = 0
for line in io.lines() do
  row = row + 1
  local pos = 1
  line = line:gsub("%s+$", "")
  while true do
    pos = line:find("[^ ]", pos)
    if not pos then break end
    local kind, tok
    tok = line:match("^[%a_][%w_]*", pos)
    if tok then
      kind = keys[tok] and "key" or "name"
      pos = pos + #tok
    else
      tok = line:match("^%d+", pos)
      if tok then kind = "number"; pos = pos + #tok
      else
        tok = line:match('^"([^"]*)"', pos)
        if tok then kind = "string"; pos = pos + #tok + 2
        elseif line:sub(pos, pos + 1) == "--" then break
        else
          local two = line:sub(pos, pos + 1)
          if two == "==" or two == "<=" or two == ">=" or two == "~=" or two == ".." then tok = two
          else tok = line:sub(pos, pos) end
          kind = "mark"; pos = pos + #tok
        end
      end
    end
    print(row .. " " .. kind .. " " .. tok)
    n[kind] = (n[kind] or 0) + 1
  end
end
print("keys " .. (n.key or "") .. " names " .. (n.name or "") .. " marks " .. (n.mark or ""))
