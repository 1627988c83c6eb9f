local function copy(t)
  local u = { leaves = {}, mark = t.mark }
  for i = 1, #t.leaves do
    local values = {}
    for j = 1, #t.leaves[i].values do values[j] = t.leaves[i].values[j] end
    u.leaves[i] = { values = values }
  end
  return u
end
local a, s = { leaves = {}, mark = 0 }, 0
for i = 1, 20 do
  a.leaves[i] = { values = {} }
  for j = 1, 50 do a.leaves[i].values[j] = i * j end
end
for k = 1, 200 do
  a.mark = k
  local b = copy(a)
  b.leaves[k % 20 + 1].values[1] = k
  s = (s + b.leaves[3].values[1] + b.mark) % 1000003
end
print(s)
