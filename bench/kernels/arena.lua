local function open_arena() return { nodes = {}, used = 0 } end
local function insert(a, key)
  a.used = a.used + 1
  local nodes = a.nodes
  nodes[a.used] = { key = key, left = 0, right = 0 }
  if a.used == 1 then return end
  local at, next, is_left = 1, 0, false
  while true do
    is_left = key < nodes[at].key
    if is_left then next = nodes[at].left else next = nodes[at].right end
    if next == 0 then break end
    at = next
  end
  if is_left then nodes[at].left = a.used else nodes[at].right = a.used end
end
local a = open_arena()
local x = 12345
for i = 1, 3000 do
  x = (x * 73 + 41) % 20011
  insert(a, x)
end
local s = 0
for i = 1, 3000 do s = (s * 3 + a.nodes[i].left + a.nodes[i].right) % 1000003 end
print(s)
