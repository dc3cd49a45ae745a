-- so many numbers put into a red-black tree, and their sum
local function node(colour, left, x, right) return { colour, left, x, right } end

local function is_red(t) return t ~= nil and t[1] == 0 end

local function balance_left(colour, left, z, right)
  if colour == 1 and is_red(left) then
    local a, y, c = left[2], left[3], left[4]
    if is_red(a) then return node(0, node(1, a[2], a[3], a[4]), y, node(1, c, z, right)) end
    if is_red(c) then return node(0, node(1, a, y, c[2]), c[3], node(1, c[4], z, right)) end
  end
  return node(colour, left, z, right)
end

local function balance_right(colour, left, x, right)
  if colour == 1 and is_red(right) then
    local b, y, d = right[2], right[3], right[4]
    if is_red(d) then return node(0, node(1, left, x, b), y, node(1, d[2], d[3], d[4])) end
    if is_red(b) then return node(0, node(1, left, x, b[2]), b[3], node(1, b[4], y, d)) end
  end
  return node(colour, left, x, right)
end

local function put(t, x)
  if t == nil then return node(0, nil, x, nil) end
  local y = t[3]
  if x < y then return balance_left(t[1], put(t[2], x), y, t[4]) end
  if y < x then return balance_right(t[1], t[2], y, put(t[4], x)) end
  return t
end

local function total(t)
  if t == nil then return 0 end
  return t[3] + total(t[2]) + total(t[4])
end

local tree = nil
for i = tonumber(arg[1]) - 1, 0, -1 do
  local put_in = put(tree, i * 7919 % 65536)
  tree = node(1, put_in[2], put_in[3], put_in[4])
end
print(total(tree))
