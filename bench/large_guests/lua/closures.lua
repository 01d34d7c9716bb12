-- Functions as values, coroutines, metatables, errors, and numbers with a fraction.
local function counter()
  local count = 0
  return function(by) count = count + (by or 1) return count end
end

local first, second = counter(), counter()
for at = 1, 1000 do first() second(at % 7) end
print(first(), second())

local function compose(...)
  local all = {...}
  return function(value)
    for _, it in ipairs(all) do value = it(value) end
    return value
  end
end
local step = compose(function(x) return x + 1 end, function(x) return x * 2 end, function(x) return x % 1009 end)
local value = 1
for _ = 1, 1000 do value = step(value) end
print(value)

local function numbers(limit)
  return coroutine.wrap(function() for at = 2, limit do coroutine.yield(at) end end)
end
local function sieve(limit)
  local found, next_number = {}, numbers(limit)
  for number in next_number do
    local is_prime = true
    for _, prime in ipairs(found) do
      if prime * prime > number then break end
      if number % prime == 0 then is_prime = false break end
    end
    if is_prime then found[#found + 1] = number end
  end
  return found
end
local primes = sieve(1500)
print(#primes, primes[#primes])

local Point = {}
Point.__index = Point
Point.__add = function(one, other) return setmetatable({x = one.x + other.x, y = one.y + other.y}, Point) end
Point.__eq = function(one, other) return one.x == other.x and one.y == other.y end
Point.__tostring = function(it) return ("(%.3f, %.3f)"):format(it.x, it.y) end
function Point.new(x, y) return setmetatable({x = x, y = y}, Point) end
local at = Point.new(0, 0)
for i = 1, 200 do at = at + Point.new(i / 3, 1 / i) end
print(tostring(at), at == Point.new(at.x, at.y))

print(pcall(error, {code = 1}) == false, select(2, pcall(function() local t = nil; return t.x end)))
print(("%.10f %.10f %.10f"):format(math.sqrt(2), math.sin(1), 2 ^ 0.5), math.pi, math.floor(-3.5), math.tointeger(3.0))
print(math.maxinteger, math.mininteger, math.maxinteger + 1 == math.mininteger, 5 // 0.0, math.fmod(7, 3))
collectgarbage()
local weak = setmetatable({}, {__mode = "k"})
for _ = 1, 50 do weak[{}] = true end
collectgarbage()
print(next(weak))
