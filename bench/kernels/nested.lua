local s = 0
for i = 1, 1000 do
  for j = 1, 1000 do
    if i * j % 3 == 0 then s = s + 1 else s = s - 1 end
  end
end
print(s)
