-- Calls, and whole numbers.
local function fib(n)
  if n < 2 then return n end
  return fib(n - 1) + fib(n - 2)
end

for n = 0, 20, 2 do print(n, fib(n)) end
