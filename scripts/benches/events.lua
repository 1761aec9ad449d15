-- A clock that goes on to the next wait, tasks, and one event.
local now, wakes, awaits, sum = 0, {}, {}, 0
local function go(task, value)
  local _, what, pause = coroutine.resume(task, value)
  if what == "sleep" then wakes[#wakes + 1] = {now + pause, task} end
  if what == "await" then awaits[#awaits + 1] = task end
end
local function signal(value)
  local those = awaits
  awaits = {}
  for _, task in ipairs(those) do go(task, value) end
end
local hears = coroutine.create(function()
  while true do
    local n = coroutine.yield("await")
    sum = sum + n
  end
end)
local rings = coroutine.create(function()
  local i = 0
  while true do
    if i >= 200000 then break end
    signal(i)
    coroutine.yield("sleep", 1)
    i = i + 1
  end
end)
go(hears)
go(rings)
while #wakes > 0 do
  local wake = table.remove(wakes)
  now = wake[1]
  go(wake[2])
end
print(sum)
