local counts, size = {}, 0
local seed, sum = 1, 0
local function word()
  seed = (seed * 16807) % 2147483647
  return "word" .. seed % 5000
end
local function count(word)
  local n = counts[word]
  if n == nil then n = 0; size = size + 1 end
  counts[word] = n + 1
end
for i = 1, 400000 do count(word()) end
for i = 0, 4999 do
  sum = (sum * 31 + (counts["word" .. i] or 0)) % 1000000007
end
print(size .. " " .. sum)
