local function twice(i) return 2 * i % 10007 end
local function less(i, j) return i - j end
local s = 0
for i = 1, 20000 do s = less(twice(twice(s + i)), 3) end
print(s)
