local function next_of(n) return (n * 17 + 5) % 1009 end
local cell = { total = 0 }
local function add(c, n) c.total = (c.total + n) % 100003 end
local n = 1
for i = 1, 100000 do
  n = next_of(n + 0)
  add(cell, n)
end
print(cell.total)
