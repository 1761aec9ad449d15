local m, i = {}, 0
while true do
  if i >= 1000000 then break end
  local k = i % 100
  local n = m[k] or 0
  m[k] = n + 1
  i = i + 1
end
print(m[7])
