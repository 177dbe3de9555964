
-- The fields that all items have, those of messages, and what is wrong.

local journal = Proto("pendratsoa", "Restate journal protocol")
journal.prefs.version = Pref.uint("Version over TCP", USUAL_VERSION, FIRST_VERSION .. " to " .. LAST_VERSION ..
  "; over HTTP the media type says it")

local type_names = {}
for code, name in pairs(TYPES) do type_names[code] = name end

local header = {
  name = ProtoField.string("pendratsoa.name", "Name", base.UNICODE, "The type, as listings name it"),
  type = ProtoField.uint16("pendratsoa.type", "Type", base.HEX, type_names, nil, "The code of the type"),
  flags = ProtoField.uint16("pendratsoa.flags", "Flags", base.HEX),
  requested_ack = ProtoField.bool("pendratsoa.requested_ack", "Requests an acknowledgement", 16, nil, 0x8000),
  length = ProtoField.uint32("pendratsoa.length", "Length of the payload", base.DEC),
  payload = ProtoField.bytes("pendratsoa.payload", "Payload"),
  unknown_field = ProtoField.bytes("pendratsoa.unknown_field", "Unknown field"),
}
local malformed = ProtoExpert.new("pendratsoa.malformed", "The payload is malformed", expert.group.MALFORMED,
  expert.severity.ERROR)
local unknown = ProtoExpert.new("pendratsoa.unknown", "The code is that of no type", expert.group.UNDECODED,
  expert.severity.WARN)
local cut_off = ProtoExpert.new("pendratsoa.cut_off", "The item is not whole", expert.group.MALFORMED,
  expert.severity.WARN)

local SCALARS = {
  string = ProtoField.string, bytes = ProtoField.bytes, bool = ProtoField.bool, uint32 = ProtoField.uint32,
  uint64 = ProtoField.uint64,
}

local function snake(name)
  return (name:gsub("Message$", ""):gsub("(%l)(%u)", "%1_%2"):lower())
end

local function field_of(message, name, kind)
  local filter = "pendratsoa." .. snake(message) .. "." .. name
  if ENUMS[kind] then return ProtoField.int32(filter, name, base.DEC, ENUMS[kind]) end
  if SCALARS[kind] then return SCALARS[kind](filter, name) end
  return ProtoField.none(filter, name .. " (" .. kind .. ")")
end

-- The fields of each message by their numbers.
local schemas, fields = {}, {}
for _, field in pairs(header) do fields[#fields + 1] = field end
for message, text in pairs(SCHEMAS) do
  schemas[message] = {}
  for number, name, list, kind in text:gmatch("(%d+) ([%w_]+) (%*?)([%w_]+)") do
    local field = field_of(message, name, kind)
    fields[#fields + 1] = field
    schemas[message][tonumber(number)] = { field = field, kind = kind, is_list = list ~= "" }
  end
end
journal.fields = fields
journal.experts = { malformed, unknown, cut_off }

-- Payloads. What is said of a place in the bytes is an offset; `stop` is where they end.

-- The varint at a place: its low and its high 32 bits, and where it ends; nothing if it is none.
local function varint(bytes, at, stop)
  local low, high = 0, 0
  for place = 0, 9 do
    if at + place >= stop then return nil end
    local byte = bytes:get_index(at + place)
    local bits = byte % 128
    if place == 9 and byte > 1 then return nil end
    if place < 4 then
      low = low + bits * 2 ^ (7 * place)
    elseif place == 4 then
      low, high = low + bits % 16 * 2 ^ 28, math.floor(bits / 16)
    else
      high = high + bits * 2 ^ (7 * place - 32)
    end
    if byte < 128 then return low, high, at + place + 1 end
  end
end

-- The characters of UTF-8, without surrogates and without longer forms of shorter ones.
local CHARACTERS = {
  "^[\0-\127]+", "^[\194-\223][\128-\191]", "^\224[\160-\191][\128-\191]",
  "^[\225-\236\238\239][\128-\191][\128-\191]", "^\237[\128-\159][\128-\191]",
  "^\240[\144-\191][\128-\191][\128-\191]", "^[\241-\243][\128-\191][\128-\191][\128-\191]",
  "^\244[\128-\143][\128-\191][\128-\191]",
}

-- Where the character at a place ends, or nothing.
local function character_end(text, at)
  for _, pattern in ipairs(CHARACTERS) do
    local _, last = text:find(pattern, at)
    if last then return last end
  end
end

local function is_utf8(text)
  local at = 1
  while at <= #text do
    local last = character_end(text, at)
    if not last then return false end
    at = last + 1
  end
  return true
end

-- What a record is after its key: where its value begins, where it ends, and the two halves of a number. Nothing if
-- there is no such record.
local skip_group
local function extent(bytes, number, wire, at, stop, level)
  if wire == 0 then
    local low, high, after = varint(bytes, at, stop)
    if after then return at, after, low, high end
  elseif wire == 2 then
    local low, high, begin = varint(bytes, at, stop)
    if low and high == 0 and begin + low <= stop then return begin, begin + low end
  elseif wire == 3 then
    local after = skip_group(bytes, number, at, stop, level + 1)
    if after then return at, after end
  elseif wire == 1 or wire == 5 then
    local after = at + (wire == 1 and 8 or 4)
    if after <= stop then return at, after end
  end
end

-- The number and the wire type of the key at a place, and where it ends; nothing if it is none.
local function key_at(bytes, at, stop)
  local low, high, after = varint(bytes, at, stop)
  if low and high == 0 and low >= 8 then return math.floor(low / 8), low % 8, after end
end

-- Where a group ends, with its key; nothing if it is none.
function skip_group(bytes, number, at, stop, level)
  if level > DEEPEST then return nil end
  while true do
    local inner, wire, begin = key_at(bytes, at, stop)
    if not inner then return nil end
    if wire == 4 then return inner == number and begin or nil end
    local _, after = extent(bytes, inner, wire, begin, stop, level)
    if not after then return nil end
    at = after
  end
end

local add_message

-- Adds the numbers of a packed list. Whether they are some.
local function add_packed(tvb, bytes, tree, row, begin, stop)
  while begin < stop do
    local number, _, after = varint(bytes, begin, stop)
    if not number then return false end
    tree:add(row.field, tvb(begin, after - begin), number)
    begin = after
  end
  return true
end

-- Adds a number. Whether the field has one.
local function add_number(tree, row, range, low, high)
  if row.kind == "uint64" then
    tree:add(row.field, range, UInt64.new(low, high))
  elseif row.kind == "bool" then
    tree:add(row.field, range, low + high > 0)
  elseif row.kind == "uint32" then
    tree:add(row.field, range, low)
  elseif ENUMS[row.kind] then
    tree:add(row.field, range, low < 2 ^ 31 and low or low - 2 ^ 32)
  else
    return false
  end
  return true
end

-- Adds a value of a known field. Whether it is one of its kind.
local function add_value(tvb, bytes, tree, row, record, level)
  local range = tvb(record.at, record.stop - record.at)
  if record.wire == 0 then return add_number(tree, row, range, record.low, record.high) end
  if record.wire ~= 2 then return false end
  local length = record.stop - record.begin
  if row.kind == "string" then
    local text = length > 0 and tvb:raw(record.begin, length) or ""
    tree:add(row.field, range, length > 0 and tvb(record.begin, length):string(ENC_UTF_8) or "")
    return is_utf8(text)
  elseif row.kind == "bytes" then
    if length > 0 then tree:add(row.field, tvb(record.begin, length)) else tree:add(row.field, range, "") end
    return true
  elseif row.kind == "uint32" and row.is_list then
    return add_packed(tvb, bytes, tree, row, record.begin, record.stop)
  elseif schemas[row.kind] then
    local inner = tree:add(row.field, range)
    return level < DEEPEST and add_message(tvb, bytes, inner, schemas[row.kind], record.begin, record.stop, level + 1)
  end
  return false
end

-- Adds the fields of a message. Whether it is well-formed.
function add_message(tvb, bytes, tree, rows, at, stop, level)
  while at < stop do
    local number, wire, begin = key_at(bytes, at, stop)
    if not number then return false end
    local record = { at = at, wire = wire }
    record.begin, record.stop, record.low, record.high = extent(bytes, number, wire, begin, stop, level)
    if not record.stop then return false end
    if not rows[number] then
      tree:add(header.unknown_field, tvb(at, record.stop - at))
    elseif not add_value(tvb, bytes, tree, rows[number], record, level) then
      return false
    end
    at = record.stop
  end
  return true
end

-- Items.

local function is_custom(code) return not TYPES[code] and code >= FIRST_CUSTOM end

local function name_of(code)
  if TYPES[code] then return TYPES[code] end
  return is_custom(code) and string.format("CustomEntry(%d)", code) or string.format("unknown 0x%x", code)
end

-- How many bytes the item at a place has: an unknown one is a header without a payload, before it is skipped.
local function size_of(tvb, at, version)
  local code = tvb(at, 2):uint()
  local has_payload = TYPES[code] or is_custom(code) or version >= SKIPPED_FROM
  return 8 + (has_payload and tvb(at + 4, 4):uint() or 0)
end

-- Shows an item that is whole.
local function show_item(tvb, pinfo, root, at, size, version)
  local code = tvb(at, 2):uint()
  local name = name_of(code)
  local tree = root:add(journal, tvb(at, size), name .. ", " .. (size - 8) .. " bytes")
  tree:add(header.name, tvb(at, 2), name)
  tree:add(header.type, tvb(at, 2))
  tree:add(header.flags, tvb(at + 2, 2))
  tree:add(header.requested_ack, tvb(at + 2, 2))
  tree:add(header.length, tvb(at + 4, 4))
  local schema = version < EARLIER_BEFORE and EARLIER[code] or MESSAGES[code]
  if schema then
    local payload = tvb:range(at, size):bytes()
    if not add_message(tvb(at, size):tvb(), payload, tree, schemas[schema], 8, size, 0) then
      tree:add_proto_expert_info(malformed)
    end
  elseif size > 8 then
    tree:add(header.payload, tvb(at + 8, size - 8))
  end
  if not schema and not is_custom(code) then tree:add_proto_expert_info(unknown) end
  pinfo.cols.info:append((tostring(pinfo.cols.info) == "" and "" or ", ") .. name)
end

-- Shows the items of a body, whole or as it comes. What the last one lacks is asked for. It returns the length of all
-- that there is, since 0 would say that the bytes are none of this protocol.
local function show_items(tvb, pinfo, root, version)
  local at = 0
  pinfo.cols.protocol = "JOURNAL"
  while at < tvb:len() do
    local left = tvb:len() - at
    local size = left >= 8 and size_of(tvb, at, version) or 8
    if left < size then
      if pinfo.can_desegment > 0 then
        pinfo.desegment_offset, pinfo.desegment_len = at, size - left
      else
        root:add(journal, tvb(at), "A part of an item"):add_proto_expert_info(cut_off)
      end
      return tvb:len()
    end
    show_item(tvb, pinfo, root, at, size, version)
    at = at + size
  end
  return at
end

function journal.dissector(tvb, pinfo, root)
  pinfo.cols.info = ""
  return show_items(tvb, pinfo, root, journal.prefs.version)
end
DissectorTable.get("tcp.port"):add_for_decode_as(journal)

-- A stream that is still open is asked for by another table than one that has ended.
for version = FIRST_VERSION, LAST_VERSION do
  local one = Proto("pendratsoa_v" .. version, "Restate journal protocol, version " .. version)
  one.dissector = function(tvb, pinfo, root) return show_items(tvb, pinfo, root, version) end
  for _, name in ipairs({ "media_type", "streaming_content_type" }) do
    DissectorTable.get(name):add(MEDIA_TYPE .. version, one)
  end
end
