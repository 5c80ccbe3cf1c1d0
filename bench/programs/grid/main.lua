local N = 120
local grid, next, cells, total = {}, {}, {}, 0
for i = 0, N - 1 do
  grid[i], next[i], cells[i] = {}, {}, {heat = 0, flow = 0}
  for j = 0, N - 1 do grid[i][j] = i * j % 97; next[i][j] = 0 end
end
for turn = 1, 50 do
  for i = 1, N - 2 do
    for j = 1, N - 2 do
      next[i][j] = (grid[i - 1][j] + grid[i + 1][j] + grid[i][j - 1] + grid[i][j + 1]) // 4
    end
  end
  for i = 1, N - 2 do
    for j = 1, N - 2 do grid[i][j] = next[i][j] end
  end
  for i = 0, N - 1 do cells[i].heat = grid[i][i]; cells[i].flow = cells[i].heat - i end
end
for i = 0, N - 1 do total = total + cells[i].heat + cells[i].flow end
print(total)
