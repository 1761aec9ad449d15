-- A context keeps what it writes over, and an error takes it back.
local v = {0, 0, 0, 0, 0, 0, 0, 0, 0}
local log = {}
local function put(at, n)
  log[#log + 1] = {at, v[at]}
  v[at] = n
end
local function condition()
  put(9, v[9] + 10)
  if not (v[9] < 0) then error("fails", 0) end
end
local function context()
  local from = #log
  local holds = pcall(condition)
  if not holds then
    for at = #log, from + 1, -1 do
      v[log[at][1]] = log[at][2]
      log[at] = nil
    end
  end
  return holds
end
local i = 0
while true do
  if i >= 1000000 then break end
  i = i + 1
  if context() then v[1] = v[1] + 1 else v[2] = v[2] + 1 end
end
local sum = 0
for _, n in ipairs(v) do sum = sum + n end
print(sum)
