local n = tonumber(io.read("l"))
local cols, up, down, board = {}, {}, {}, {}
local count = 0
local function place(row)
  if row > n then
    count = count + 1
    local txt = ""
    for i = 1, n do txt = txt .. " " .. board[i] end
    print(count .. ":" .. txt)
    return
  end
  for col = 1, n do
    if not cols[col] and not up[row + col] and not down[row - col] then
      cols[col] = true; up[row + col] = true; down[row - col] = true
      board[row] = col
      place(row + 1)
      cols[col] = nil; up[row + col] = nil; down[row - col] = nil
    end
  end
end
place(1)
print(count .. " solutions")
