for line in io.lines() do print(line:match("(....).-%1") or "none") end
