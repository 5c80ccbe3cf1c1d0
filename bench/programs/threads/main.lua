-- Lua has no mutexes: two coroutines, of which each goes on where the buffer keeps the other waiting
local room, total = 16, 300000
local buffer = { first = 0, count = 0 }
local producer = coroutine.create(function()
  for n = 1, total do
    while buffer.count == room do coroutine.yield() end
    buffer[(buffer.first + buffer.count) % room] = n
    buffer.count = buffer.count + 1
  end
end)
local function next_item()
  while buffer.count == 0 do coroutine.resume(producer) end
  local item = buffer[buffer.first]
  buffer.first = (buffer.first + 1) % room
  buffer.count = buffer.count - 1
  return item
end
local sum = 0
for i = 1, total do sum = (sum * 31 + next_item()) % 1000000007 end
print(sum)
