local s, i = "", 0
while true do
  if i >= 100000 then break end
  s = s .. "x"
  i = i + 1
end
print(#s)
