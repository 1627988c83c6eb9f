local n, p, s = 1000, {}, 0
for i = 1, n do p[i] = { x = i * 37 % 101, y = i * 53 % 97, seen = false } end
for k = 1, 100 do
  for i = 1, n do
    local q = p[i]
    if q.seen then
      q.y = (q.y + 1) % 97
    else
      q.x = (q.x + q.y) % 101
    end
    q.seen = q.x > q.y
  end
end
for i = 1, n do s = s + p[i].x - p[i].y end
print(s)
