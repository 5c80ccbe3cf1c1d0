local Square, Strip = {}, {}
Square.__index, Strip.__index = Square, Strip
function Square:area() return self.side * self.side end
function Square:grow(by) self.side = (self.side + by) % 1000 end
function Strip:area() return self.length end
function Strip:grow(by) self.length = self.length + 2 * by end
local shapes = {}
local function total(turns)
  local sum = 0
  for turn = 1, turns do
    for i = 0, 9 do
      shapes[i]:grow(i)
      sum = (sum + shapes[i]:area()) % 1000003
    end
  end
  return sum
end
for i = 0, 9 do
  if i % 2 == 0 then shapes[i] = setmetatable({ side = 1 }, Square)
  else shapes[i] = setmetatable({ length = 1 }, Strip) end
end
print(total(200000))
