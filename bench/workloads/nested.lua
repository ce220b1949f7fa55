for line in io.lines() do
  local n, most, at = 0, 0, 2
  while at < #line do
    local start = at
    while at < #line do
      local c = line:sub(at, at)
      if c == " " then break end
      if c == "(" then at = select(2, line:find("^%b()", at)) end
      at = at + 1
    end
    n = n + 1
    if at - start > most then most = at - start end
    at = at + 1
  end
  print(n .. " " .. most)
end
