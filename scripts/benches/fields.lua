local counter = {}
counter.__index = counter
function counter:add(n) self.count = self.count + n end
local c = setmetatable({count = 0}, counter)
local i = 0
while true do
  if i >= 1000000 then break end
  c:add(i)
  i = i + 1
end
print(c.count)
