local function open_list() return { items = {}, count = 0, room = 4 } end
local function add(l, number)
  if l.count == l.room then
    local more = {}
    for i = 1, l.count do more[i] = { number = l.items[i].number, marks = l.items[i].marks } end
    l.items, l.room = more, 2 * l.count
  end
  l.count = l.count + 1
  l.items[l.count] = { number = number, marks = { number, number % 7, number % 11 } }
end
local s = 0
for k = 1, 20 do
  local l = open_list()
  for i = 1, 500 do add(l, i * k) end
  for i = 1, l.count do
    local it = l.items[i]
    s = (s + it.marks[2] * it.marks[3] + it.number) % 1000003
  end
end
print(s)
