-- sets of small numbers as the bits of integers
local size = 11
local ways = 0
local function place(row, columns, rising, falling)
  if row == size then ways = ways + 1; return end
  for c = 0, size - 1 do
    local up, down = row + c, row - c + size - 1
    if columns >> c & 1 == 0 and rising >> up & 1 == 0 and falling >> down & 1 == 0 then
      place(row + 1, columns | 1 << c, rising | 1 << up, falling | 1 << down)
    end
  end
end
place(0, 0, 0, 0)
print(ways)
