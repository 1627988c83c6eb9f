local v, w, s = {}, { 0, 0, 0, 0, 0 }, 0
for k = 1, 20 do
  for i = 1, 5 do v[i] = w[i] end
  v[1] = v[1] + k
  print(table.unpack(v))
  for i = 1, 10000 do
    s = (s * 3 + i) % 100003
    v[i % 5 + 1] = s
  end
  for i = 1, 5 do w[i] = v[i] end
end
print(s)
