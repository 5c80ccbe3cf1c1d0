local count = 100000
local seed = 1
local function random(below)
  seed = (seed * 16807) % 2147483647
  return seed % below
end
local function compare(a, b)
  if a.customer ~= b.customer then return a.customer - b.customer end
  return b.amount - a.amount
end
local function merge(items, room, first, middle, last, compare)
  local left, right = first, middle
  for i = first, last - 1 do room[i] = items[i] end
  for i = first, last - 1 do
    if right == last or left < middle and compare(room[left], room[right]) <= 0 then
      items[i] = room[left]; left = left + 1
    else
      items[i] = room[right]; right = right + 1
    end
  end
end
local function sort_within(items, room, first, last, compare)
  if last - first < 2 then return end
  local middle = (first + last) // 2
  sort_within(items, room, first, middle, compare)
  sort_within(items, room, middle, last, compare)
  merge(items, room, first, middle, last, compare)
end
local orders = {}
for i = 0, count - 1 do
  local customer = random(1000)
  local amount = random(100000)
  orders[i] = { customer = customer, amount = amount, number = i }
end
sort_within(orders, {}, 0, count, compare)
local sum = 0
for i = 0, count - 1 do
  sum = (sum * 31 + orders[i].amount + orders[i].customer) % 1000000007
end
print(sum)
