local state, count = 0, { [0] = 0, 0, 0, 0 }
for i = 1, 200000 do
  if state == 0 then
    state = 1
    if i % 5 == 0 then state = 3 end
  elseif state == 1 then
    state = 2
  elseif state == 2 then
    state = 0
    if i % 7 == 0 then state = 1 end
  else
    state = 0
  end
  count[state] = count[state] + 1
end
print(count[0], count[1], count[2], count[3])
