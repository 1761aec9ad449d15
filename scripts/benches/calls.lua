local function add(a, b) return a + b end
local i, s = 0, 0
while true do
  if i >= 3000000 then break end
  i = i + 1
  s = add(s, i)
end
print(s)
