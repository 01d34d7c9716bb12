-- Tables: sorts by the library, with and without an order of its own, and by hand.
local state = 42
local function chance(limit)
  state = (state * 1103515245 + 12345) % 2147483648
  return state // 65536 % limit
end

local function sum(list)
  local found = 0
  for at, value in ipairs(list) do found = (found * 31 + value * at) % 1000000007 end
  return found
end

local function drawn(count)
  local list = {}
  for at = 1, count do list[at] = chance(100000) end
  return list
end

local one = drawn(600)
table.sort(one)
print(sum(one), one[1], one[300], one[600])

local other = drawn(300)
table.sort(other, function(left, right) return left % 1000 > right % 1000 or left % 1000 == right % 1000 and left < right end)
print(sum(other))

local function merged(list)
  if #list < 2 then return list end
  local half = #list // 2
  local left, right = merged(table.move(list, 1, half, 1, {})), merged(table.move(list, half + 1, #list, 1, {}))
  local result, i, j = {}, 1, 1
  while left[i] or right[j] do
    if not right[j] or left[i] and left[i] <= right[j] then
      result[#result + 1], i = left[i], i + 1
    else
      result[#result + 1], j = right[j], j + 1
    end
  end
  return result
end
print(sum(merged(drawn(300))))
print(select("#", table.unpack(drawn(100))), table.concat(merged(drawn(12)), " "))
