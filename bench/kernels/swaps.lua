local function swap(a, i, j) a[i], a[j] = a[j], a[i] end
local a = {}
for i = 1, 100 do a[i] = i * 37 % 101 end
for k = 1, 400 do
  for i = 1, 99 do
    if a[i] > a[i + 1] then swap(a, i, i + 1) end
  end
end
print(a[1], a[50], a[100])
