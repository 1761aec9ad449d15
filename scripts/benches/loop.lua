local i, s = 0, 0
while true do
  if i >= 3000000 then break end
  i = i + 1
  s = s + (i * 3 - 1)
end
print(s)
