local closed = 0
local closing = { __close = function(h) if h.number then closed = closed + h.number end end }
local function use_one(i)
  local h <close> = setmetatable({}, closing)
  h.number = i % 10
end
for i = 1, 20000 do use_one(i) end
print(closed)
