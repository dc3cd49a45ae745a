-- so many thousands of RISC-V branches, decoded, and the sum of their fields
local function decode(word)
  local halves = word >> 8 & 15 | (word >> 25 & 63) << 4 | (word >> 7 & 1) << 10 | (word >> 31 & 1) << 11
  return halves + (word >> 12 & 7) + (word >> 15 & 31) + (word >> 20 & 31)
end

local sum = 0
for first = tonumber(arg[1]) - 1, 0, -1 do
  for seed = first, first + 999 do
    local word = seed * 2654435761 & 0xFFFFFF80 | 99
    sum = sum + decode(word)
  end
end
print(sum)
