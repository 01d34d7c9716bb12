-- Texts: patterns, formats, bytes, and what is made of many pieces.
local text = [[The machine has the integer instructions of the 80386, but for those that are left out.]]

local counts, words = {}, {}
for word in text:gmatch("%a+") do
  word = word:lower()
  if not counts[word] then words[#words + 1] = word end
  counts[word] = (counts[word] or 0) + 1
end
table.sort(words)
for _, word in ipairs(words) do print(("%-14s|%3d|%s"):format(word, counts[word], word:rep(2, "-"):upper())) end

print((text:gsub("(%w+) (%w+)", "%2 %1")))
print(text:find("left", 1, true), text:match("(%d+)"), text:byte(1, 5))
print(("%q %5.2f %x %o %e %g %a"):format("a\n\0b\"", 3.14159, 48879, 8, 12345.678, 1e100, 0.5))

local pieces = {}
for at = 1, 300 do pieces[#pieces + 1] = ("%d:%s"):format(at, string.char(97 + at % 26)) end
local whole = table.concat(pieces, ",")
print(#whole, whole:sub(-20), whole:reverse():sub(1, 20))

local hash = 5381
for at = 1, #whole do hash = (hash * 33 ~ whole:byte(at)) & 0xffffffff end
print(hash)
print(string.pack("<i4z", 1000, "abc"):byte(1, -1))
print(utf8.char(72, 228, 8364, 128512), utf8.len("Häß"), #utf8.char(8364))
print(tostring(1e15), 2^53, 10 // 3, -7 // 2, -7 % 3, 7 / 2, 1e308 * 10, -(0 / 0) ~= 0)
