local n, a, b, c = 60, {}, {}, {}
for i = 1, n do
  a[i], b[i], c[i] = {}, {}, {}
  for j = 1, n do
    a[i][j] = (i * 3 + j) % 7
    b[i][j] = (i + j * 5) % 11
  end
end
for i = 1, n do
  for j = 1, n do
    local s = 0
    for k = 1, n do s = s + a[i][k] * b[k][j] end
    c[i][j] = s
  end
end
print(c[1][1], c[n][n], c[7][31])
