local ops, args, labels, vars, stack = {}, {}, {}, {}, {}
local n = 0
for line in io.lines() do
  local name = line:match("^:(.*)$")
  if name then labels[name] = n + 1
  else
    n = n + 1
    local op, arg = line:match("^(%S+) (.*)$")
    ops[n] = op or line
    args[n] = arg or ""
  end
end
local pc, sp, steps = 0, 0, 0
local exec = {
  push = function(arg) sp = sp + 1; stack[sp] = tonumber(arg) end,
  load = function(arg) sp = sp + 1; stack[sp] = vars[arg] or 0 end,
  store = function(arg) vars[arg] = stack[sp]; sp = sp - 1 end,
  add = function() sp = sp - 1; stack[sp] = stack[sp] + stack[sp + 1] end,
  sub = function() sp = sp - 1; stack[sp] = stack[sp] - stack[sp + 1] end,
  mul = function() sp = sp - 1; stack[sp] = stack[sp] * stack[sp + 1] end,
  mod = function() sp = sp - 1; stack[sp] = math.fmod(stack[sp], stack[sp + 1]) end,
  jump = function(arg) pc = labels[arg] - 1 end,
  jzero = function(arg) sp = sp - 1; if stack[sp + 1] == 0 then pc = labels[arg] - 1 end end,
  jneg = function(arg) sp = sp - 1; if stack[sp + 1] < 0 then pc = labels[arg] - 1 end end,
  print = function() print(stack[sp]); sp = sp - 1 end,
}
while true do
  pc = pc + 1
  steps = steps + 1
  local op = ops[pc]
  if op == "halt" then print(steps .. " steps") break end
  exec[op](args[pc])
end
