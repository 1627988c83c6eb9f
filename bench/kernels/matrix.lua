local n, a, b, c, s = 50, {}, {}, {}, 0
for i = 1, n do
  a[i], b[i], c[i] = {}, {}, {}
  for j = 1, n do
    a[i][j] = i * j % 13
    b[i][j] = (i + j) % 11
  end
end
for j = 1, n do
  for i = 1, n do
    local t = 0
    for k = 1, n do t = t + a[i][k] * b[k][j] end
    c[i][j] = t
  end
end
for j = 1, n do
  for i = 1, n do s = (s + c[i][j]) % 1000003 end
end
print(s)
