local n, v, w, s = 1000, {}, {}, 0
for i = 1, n do
  v[i] = i * 37 % 101
  w[i] = i * 53 % 97
end
for k = 1, 100 do
  for i = 1, n, 2 do v[i] = w[i] end
  local at = n
  for i = 2, n, 2 do
    w[i] = v[at]
    at = at - 2
  end
  for i = 3, n - 1 do v[i] = v[i + 1] end
end
for i = 1, n do s = (s * 3 + v[i] + w[i]) % 1000003 end
print(s)
