-- a list of so many numbers, built and summed, ten times
local function build(n)
  if n == 0 then return nil end
  local rest = build(n - 1)
  return { n, rest }
end

local function sum(list)
  if list == nil then return 0 end
  return list[1] + sum(list[2])
end

local total = 0
for _ = 1, 10 do total = total + sum(build(tonumber(arg[1]))) end
print(total)
