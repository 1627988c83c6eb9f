local n, v, x = 600, {}, 12345
for i = 1, n do
  x = (x * 73 + 41) % 20011
  v[i] = x
end
for i = 2, n do
  x = v[i]
  local j = i - 1
  while true do
    if j < 1 then break end
    if v[j] <= x then break end
    v[j + 1] = v[j]
    j = j - 1
  end
  v[j + 1] = x
end
local s = 0
for i = 1, n do s = (s * 3 + v[i]) % 1000003 end
print(v[1], v[n], s)
