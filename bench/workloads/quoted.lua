for line in io.lines() do
  local fields, at = {}, 1
  while true do
    if line:sub(at, at) == '"' then
      local parts = {}
      at = at + 1
      while true do
        local e = line:find('"', at, true)
        parts[#parts + 1] = line:sub(at, e - 1)
        at = e + 1
        if line:sub(at, at) ~= '"' then break end
        parts[#parts + 1] = '"'
        at = at + 1
      end
      fields[#fields + 1] = table.concat(parts)
    else
      local e = line:find(",", at, true) or #line + 1
      fields[#fields + 1] = line:sub(at, e - 1)
      at = e
    end
    if at > #line then break end
    at = at + 1
  end
  print(#fields .. " " .. fields[2])
end
