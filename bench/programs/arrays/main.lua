local function fill(a, n)
  for i = 0, n - 1 do a[i] = i % 1000 end
end
local function sum(a, n)
  local s = 0
  for i = 0, n - 1 do s = s + a[i] end
  return s
end
local numbers, total = {}, 0
fill(numbers, 100000)
for turn = 1, 100 do total = total + sum(numbers, 100000) end
print(total)
