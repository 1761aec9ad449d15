-- A clock that goes on to the next wait, and one task.
local now, wakes, i = 0, {}, 0
local task = coroutine.create(function()
  while true do
    if i >= 1000000 then break end
    coroutine.yield(1)
    i = i + 1
  end
end)
wakes[1] = {0, task}
while #wakes > 0 do
  local wake = table.remove(wakes)
  now = wake[1]
  local _, pause = coroutine.resume(wake[2])
  if pause then wakes[#wakes + 1] = {now + pause, wake[2]} end
end
print(i)
