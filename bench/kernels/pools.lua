local function add(l, number)
  l.count = l.count + 1
  local it = l.items[l.count]
  it.number, it.marks = number, { number, number % 7, number % 11 }
end
local function drop(l)
  l.items[l.count].marks = nil
  l.count = l.count - 1
end
local l = { items = {}, count = 0 }
for i = 1, 500 do l.items[i] = { number = 0 } end
local s = 0
for k = 1, 20 do
  for i = 1, 500 do add(l, i * k) end
  for i = 1, l.count do
    local it = l.items[i]
    s = (s + it.marks[2] * it.marks[3] + it.number) % 1000003
  end
  for i = 1, 500 do drop(l) end
end
print(s)
