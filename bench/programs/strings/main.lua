local function page(first, last)
  local buffer = {}
  for n = first, last do
    buffer[#buffer + 1] = n .. " squared is " .. n * n
    buffer[#buffer + 1] = "\n"
  end
  return table.concat(buffer)
end
local sum = 0
for number = 0, 399 do
  local text = page(number * 100, number * 100 + 99)
  for i = 1, #text do sum = (sum * 31 + text:byte(i)) % 1000000007 end
end
print(sum)
