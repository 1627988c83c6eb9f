local function norm(p) return math.abs(p.x) + math.abs(p.y) end
local function shift(p, by)
  p.x = p.x + by
  p.y = p.y - by
end
local q = {}
for i = 1, 50 do q[i] = { x = i, y = 0 } end
local s = 0
for k = 1, 200 do
  for i = 1, 50 do
    shift(q[i], 1)
    s = (s + norm(q[i])) % 10007
  end
end
print(s)
