local count = 0
for line in io.lines() do
  print(line:reverse())
  local l = line:lower():gsub("[^%l]", "")
  if l == l:reverse() then
    count = count + 1
    print("*** palindrome: " .. line)
  end
end
print(count .. " palindromes")
