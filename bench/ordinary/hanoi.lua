local pegs = {}
local moves = 0
local function hanoi(n, from, to, via)
  if n == 0 then return end
  hanoi(n - 1, from, via, to)
  moves = moves + 1
  local disc = pegs[from]:sub(1, 1)
  pegs[from] = pegs[from]:sub(2)
  pegs[to] = disc .. pegs[to]
  hanoi(n - 1, via, to, from)
end
local function ack(m, n)
  if m == 0 then return n + 1 end
  if n == 0 then return ack(m - 1, 1) end
  return ack(m - 1, ack(m, n - 1))
end
local d = tonumber(io.read("l"))
pegs.P1 = ("ABCDEFGHIJKLMNOPQRST"):sub(1, d)
pegs.P2 = ""
pegs.P3 = ""
hanoi(d, "P1", "P3", "P2")
print(moves .. " moves " .. pegs.P1 .. "/" .. pegs.P2 .. "/" .. pegs.P3)
print(ack(2, d * 3))
