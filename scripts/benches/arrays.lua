local a, s = {}, 0
for i = 0, 999 do a[i] = i end
local k = 0
while true do
  if k >= 1000 then break end
  for j = 0, 999 do
    local x = a[j]
    if x then s = s + x end
  end
  k = k + 1
end
print(s)
