local N = 120
local function new()
  local m = {}
  for i = 0, N - 1 do m[i] = {} end
  return m
end
local function product(a, b, c)
  for i = 0, N - 1 do
    for j = 0, N - 1 do
      local sum = 0
      for k = 0, N - 1 do sum = sum + a[i][k] * b[k][j] end
      c[i][j] = sum % 1000003
    end
  end
end
local a, b, c, trace = new(), new(), new(), 0
for i = 0, N - 1 do
  for j = 0, N - 1 do a[i][j] = i + j; b[i][j] = i * j % 17 end
end
for turn = 1, 3 do product(a, b, c); product(c, b, a) end
for i = 0, N - 1 do trace = trace + a[i][i] end
print(trace)
