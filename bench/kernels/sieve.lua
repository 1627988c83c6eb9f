local most, composite, count = 200000, {}, 0
for i = 1, most do composite[i] = false end
for i = 2, most do
  if not composite[i] then
    count = count + 1
    local j = i + i
    while j <= most do
      composite[j] = true
      j = j + i
    end
  end
end
print(count)
