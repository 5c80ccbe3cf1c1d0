local function build(depth)
  if depth == 0 then return {} end
  return { left = build(depth - 1), right = build(depth - 1) }
end
local function count(tree)
  if tree.left == nil then return 1 end
  return 1 + count(tree.left) + count(tree.right)
end
local nodes = 0
for turn = 1, 60 do nodes = nodes + count(build(14)) end
print(nodes)
