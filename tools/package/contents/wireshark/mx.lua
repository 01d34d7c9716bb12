-- Reads the captures that `pcapng` makes of a history of mx, for Wireshark and tshark: docs/use/WIRESHARK.md.
-- A capture names this dissector in each packet, so nothing has to be set.
local mx = Proto("mx", "mx message")

local KINDS = { [0] = "message", "notify", "pending", "call", "answer", "down", "respawn" }
local MESSAGE, NOTIFY, CALL, ANSWER = 0, 1, 3, 4
-- Where the words begin, and how many of them a message has before p0.
local HEAD, BEFORE_WORDS = 16, 2

local fields = {
  record = ProtoField.uint32("mx.record", "Record"),
  actor = ProtoField.uint8("mx.actor", "Actor"),
  kind = ProtoField.uint8("mx.kind", "Kind", base.DEC, KINDS),
  from = ProtoField.string("mx.from", "From"),
  from_endpoint = ProtoField.int32("mx.from.endpoint", "From endpoint"),
  to = ProtoField.string("mx.to", "To"),
  to_endpoint = ProtoField.int32("mx.to.endpoint", "To endpoint"),
  type = ProtoField.uint32("mx.type", "Type"),
  call = ProtoField.string("mx.call", "Kernel call"),
  result = ProtoField.int32("mx.result", "Result"),
  text = ProtoField.string("mx.text", "Text"),
  request = ProtoField.framenum("mx.request", "Answers the message of", base.NONE, frametype.REQUEST),
  response = ProtoField.framenum("mx.response", "Is answered by", base.NONE, frametype.RESPONSE),
  after = ProtoField.uint32("mx.after", "Records since that message"),
}
local words = {}
for i = 0, 6 do
  words[i] = ProtoField.uint32("mx.p" .. i, "p" .. i)
  fields["p" .. i] = words[i]
end
mx.fields = fields

-- Of each pair of endpoints the last message that isn't answered; and what answers what, by the packets' numbers.
local open, requests, responses = {}, {}, {}

function mx.init()
  open, requests, responses = {}, {}, {}
end

-- A message answers the last one of the other direction that wasn't answered. Packets come in order once.
local function pair(number, record, from, to)
  local back = to .. " " .. from
  local request = open[back]
  if request then
    requests[number] = { number = request.number, after = record - request.record }
    responses[request.number] = number
    open[back] = nil
  else
    open[from .. " " .. to] = { number = number, record = record }
  end
end

local function show_pair(tree, number)
  local request = requests[number]
  if request then
    tree:add(fields.request, request.number):set_generated()
    tree:add(fields.after, request.after):set_generated()
  end
  if responses[number] then
    tree:add(fields.response, responses[number]):set_generated()
  end
end

-- Shows a text that ends with a zero, if it has bytes. Returns it, and where the next one begins.
local function show_text(tree, field, buffer, at)
  local size = buffer(at):strsize()
  local text = buffer(at, size):stringz()
  if text ~= "" then
    tree:add(field, buffer(at, size), text)
  end
  return text, at + size
end

-- Shows the words p0 .. that are there. Returns them as a text, of a message without the zeros at its end.
local function show_words(tree, buffer, at, count)
  local shown, used = {}, 0
  for i = 0, count - 1 do
    local word = buffer(at + 4 * i, 4)
    tree:add_le(words[i], word)
    shown[i + 1] = tostring(word:le_uint())
    if word:le_uint() ~= 0 then
      used = i + 1
    end
  end
  return table.concat(shown, " "), table.concat(shown, " ", 1, used)
end

-- Shows a message's type; of an answer that is its result. Returns it.
local function show_type(tree, kind, buffer)
  local word = buffer(HEAD + 4, 4)
  if kind == ANSWER then
    tree:add_le(fields.result, word)
    return word:le_int()
  end
  tree:add_le(fields.type, word)
  return word:le_uint()
end

-- What the list of packets says of one, after its kind.
local function summary(kind, type, all_words, used_words, call, text)
  if kind == MESSAGE or kind == NOTIFY then
    return " type " .. type .. (used_words == "" and "" or " words " .. used_words)
  elseif kind == CALL then
    return " " .. call .. (all_words == "" and "" or " " .. all_words)
  elseif kind == ANSWER then
    return " " .. call .. ": " .. type .. " " .. text .. (used_words == "" and "" or " " .. used_words)
  end
  return text == "" and "" or " " .. text
end

local function party(name, endpoint)
  return endpoint < 0 and name or name .. " " .. endpoint
end

function mx.dissector(buffer, pinfo, root)
  local tree = root:add(mx, buffer())
  local record, kind, count = buffer(0, 4):le_uint(), buffer(5, 1):uint(), buffer(6, 1):uint()
  local source, target = buffer(8, 4):le_int(), buffer(12, 4):le_int()
  local is_message = kind == MESSAGE or kind == NOTIFY or kind == ANSWER
  local before = is_message and BEFORE_WORDS or 0
  local at, from, to, call, text, type = HEAD + 4 * count

  tree:add_le(fields.record, buffer(0, 4))
  tree:add(fields.actor, buffer(4, 1))
  tree:add(fields.kind, buffer(5, 1))
  from, at = show_text(tree, fields.from, buffer, at)
  tree:add_le(fields.from_endpoint, buffer(8, 4))
  to, at = show_text(tree, fields.to, buffer, at)
  tree:add_le(fields.to_endpoint, buffer(12, 4))
  call, at = show_text(tree, fields.call, buffer, at)
  if is_message then
    type = show_type(tree, kind, buffer)
  end
  text = show_text(tree, fields.text, buffer, at)
  local all_words, used_words = show_words(tree, buffer, HEAD + 4 * before, count - before)
  if kind == MESSAGE then
    if not pinfo.visited then
      pair(pinfo.number, record, source, target)
    end
    show_pair(tree, pinfo.number)
  end

  pinfo.cols.protocol = "mx"
  pinfo.cols.src, pinfo.cols.dst = party(from, source), party(to, target)
  pinfo.cols.info = record .. " " .. KINDS[kind] .. summary(kind, type, all_words, used_words, call, text)
end
