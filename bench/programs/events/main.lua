local Queue, Arrival, Service = {}, {}, {}
Queue.__index, Arrival.__index, Service.__index = Queue, Arrival, Service
function Queue:put(event)
  local events, place = self.events, self.count
  self.count = self.count + 1
  while place > 0 do
    local above = (place - 1) // 2
    if events[above].time <= event.time then break end
    events[place] = events[above]
    place = above
  end
  events[place] = event
end
function Queue:take()
  local events = self.events
  local first, place = events[0], 0
  self.count = self.count - 1
  local count = self.count
  local last = events[count]
  while true do
    local below = 2 * place + 1
    if below >= count then break end
    if below + 1 < count and events[below + 1].time < events[below].time then
      below = below + 1
    end
    if last.time <= events[below].time then break end
    events[place] = events[below]
    place = below
  end
  events[place] = last
  return first
end
local queue = setmetatable({ events = {}, count = 0 }, Queue)
local seed, sum = 1, 0
local function random(below)
  seed = (seed * 16807) % 2147483647
  return seed % below
end
function Arrival:happen()
  local length = random(50)
  queue:put(setmetatable({ time = self.time + length, length = length }, Service))
  return 1
end
function Service:happen()
  queue:put(setmetatable({ time = self.time + random(100) }, Arrival))
  return self.length
end
for i = 1, 1000 do queue:put(setmetatable({ time = random(1000) }, Arrival)) end
for i = 1, 200000 do
  local event = queue:take()
  sum = (sum * 31 + event.time + event:happen()) % 1000000007
end
print(sum)
