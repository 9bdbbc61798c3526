-- Shows what a TESLA stream sends in Wireshark and tshark: data frames and disclosure frames of both versions, asks and
-- replies. The fields have the names that docs/FORMATS.md gives them, and what is malformed there is marked as malformed. Of a
-- handover to a further stream the setup is shown.
-- docs/operating/LOOKING.md says how it is installed and used.
--
-- A datagram over UDP is taken where it begins with one of the three magics, at whatever port. Where another protocol
-- claims the port, choose TESLA under "Decode As". Tags aren't verified, and keys aren't walked.

local tesla = Proto("tesla", "TESLA stream")

local FRAME, ASK, REPLY = 0x54534c41, 0x5441534b, 0x54524550
local DATA, DISCLOSURE = 1, 2
local MOST_PAYLOAD, KEY = 1200, 32
-- Of each version: the most rows, and the bytes of a tag where the frame doesn't tell them.
local VERSIONS = { [1] = { rows = 4, tag = 16 }, [2] = { rows = 8 } }
local SHORTEST_TAG, LONGEST_TAG = 10, 32
-- What the payload of a handover begins with, and how the text of a setup begins that stands behind it.
local HANDOVER = "TNXT\1"
local SETUP = "^tesla [12]\nstream ()(" .. ("[0-9a-f]"):rep(16) .. ")\n"

local fields = {
  magic = ProtoField.string("tesla.magic", "magic"),
  version = ProtoField.uint8("tesla.version", "version"),
  kind = ProtoField.uint8("tesla.kind", "kind", base.DEC, { [DATA] = "data frame", [DISCLOSURE] = "disclosure frame" }),
  stream = ProtoField.uint64("tesla.stream", "stream", base.HEX),
  interval = ProtoField.uint32("tesla.interval", "interval"),
  number = ProtoField.uint16("tesla.number", "number"),
  length = ProtoField.uint16("tesla.length", "length", base.DEC, nil, nil, "The bytes of the payload"),
  payload = ProtoField.bytes("tesla.payload", "payload"),
  handover = ProtoField.none("tesla.handover", "handover"),
  next_stream = ProtoField.uint64("tesla.next_stream", "next stream", base.HEX, nil, nil, "The stream that a handover names"),
  line = ProtoField.string("tesla.line", "line", base.ASCII, "A line of the text of a handover"),
  count = ProtoField.uint8("tesla.count", "count", base.DEC, nil, nil, "How many rows the frame has"),
  tag_length = ProtoField.uint8("tesla.tag_length", "tag length"),
  row = ProtoField.none("tesla.row", "row"),
  tag = ProtoField.bytes("tesla.tag", "tag"),
  flag = ProtoField.uint8("tesla.flag", "flag", base.DEC, { [0] = "no key", [1] = "a key" }),
  chain = ProtoField.uint8("tesla.chain", "chain", base.DEC, nil, nil, "The chain of a key that the frame tells"),
  index = ProtoField.uint32("tesla.index", "index", base.DEC, nil, nil, "The index of a key that the frame tells"),
  key = ProtoField.bytes("tesla.key", "key", base.NONE, "A key that the frame tells"),
  t_r = ProtoField.uint64("tesla.t_r", "t_r", base.DEC, nil, nil, "The receiver's time, in microseconds"),
  t_s = ProtoField.uint64("tesla.t_s", "t_s", base.DEC, nil, nil, "The sender's time, in microseconds"),
  unread = ProtoField.bytes("tesla.unread", "not read", base.NONE, "The bytes from the malformed place on"),
}
tesla.fields = fields

local experts = {
  malformed = ProtoExpert.new("tesla.malformed", "malformed", expert.group.MALFORMED, expert.severity.ERROR),
  cut = ProtoExpert.new("tesla.cut", "cut by the recording", expert.group.UNDECODED, expert.severity.WARN),
}
tesla.experts = experts

tesla.prefs.delays = Pref.string("Delays of the key chains", "",
  "The disclosure delays of the setup, with a space between two, as 2 5. With them the index of a key in a data frame is shown.")

-- The reading of a datagram ends at the first thing that is malformed.
local function malformed(form, ...)
  error({ expert = experts.malformed, text = string.format(form, ...) }, 0)
end

-- A datagram that is read from its front: how many bytes it had on the way, and how many of them the recording holds.
local Datagram = {}
Datagram.__index = Datagram

-- The next bytes are those of a field of this name.
function Datagram:next(name, size)
  local from, to = self.at, self.at + size
  if to > self.sent then
    malformed("it ends within %s", name)
  elseif to > self.held then
    error({ expert = experts.cut, text = string.format("the recording has %d of its %d bytes", self.held, self.sent) }, 0)
  end
  self.at = to
  return self.tvb(from, size)
end

-- The next bytes, shown in the tree as the field of this name.
function Datagram:show(tree, name, size)
  local range = self:next(name:gsub("^tag_", "tag "), size)
  tree:add(fields[name], range)
  return range
end

-- The same of a number of at most four bytes.
function Datagram:number(tree, name, size)
  return self:show(tree, name, size):uint()
end

-- Nothing stands behind the last field.
function Datagram:ended()
  if self.at < self.sent then
    malformed("%d bytes stand behind its end", self.sent - self.at)
  end
end

-- The delay of a chain, where the preferences tell it.
local function delay_of(chain)
  for delay in tesla.prefs.delays:gmatch("%d+") do
    if chain == 0 then
      return tonumber(delay)
    end
    chain = chain - 1
  end
end

-- Says in the row of a data frame of which chain its key is, and which index it has.
local function name_key(row, chain, interval)
  local delay = delay_of(chain)
  row:add(fields.chain, chain):set_generated()
  if delay and delay <= interval then
    row:add(fields.index, interval - delay):set_generated()
  end
end

-- A row of a data frame: a tag, a flag, and a key where the flag is 1. Says how many keys it has.
local function read_tag_row(datagram, tree, chain, tag, interval)
  local range = datagram:next("the row of chain " .. chain, tag + 1)
  local row = tree:add(fields.row, range):append_text(" of chain " .. chain)
  local flag = range(tag, 1):uint()
  row:add(fields.tag, range(0, tag))
  row:add(fields.flag, range(tag, 1))
  if flag > 1 then
    datagram.at = datagram.at - 1
    malformed("flag %d of chain %d is neither 0 nor 1", flag, chain)
  elseif flag == 1 then
    name_key(row, chain, interval)
    datagram:show(row, "key", KEY)
    row:set_len(tag + 1 + KEY)
    row:append_text(", with a key")
  end
  return flag
end

-- How many rows a frame of this version has.
local function read_count(datagram, tree, version)
  local count = datagram:number(tree, "count", 1)
  if count < 1 or count > version.rows then
    malformed("count %d is outside 1 to %d", count, version.rows)
  end
  return count
end

local function read_tag_length(datagram, tree)
  local tag = datagram:number(tree, "tag_length", 1)
  if tag < SHORTEST_TAG or tag > LONGEST_TAG then
    malformed("tag length %d is outside %d to %d", tag, SHORTEST_TAG, LONGEST_TAG)
  end
  return tag
end

-- A text in which every byte that is no printable character of ASCII stands as \x and two digits, and \ as \\.
local function printable(text)
  return (text:gsub("\\", "\\\\"):gsub("[^ -~]", function(byte)
    return string.format("\\x%02x", byte:byte())
  end))
end

-- Shows the lines of the text of a handover, the last one also where it isn't ended.
local function show_lines(tree, range)
  local text, from = range:raw(), 1
  while from <= #text do
    local to = text:find("\n", from, true) or #text
    tree:add(fields.line, range(from - 1, to - from + 1), printable((text:sub(from, to):gsub("\n$", ""))))
    from = to + 1
  end
end

-- Shows a payload that begins as a handover. Says to which stream, as far as its text begins as a setup. Whether it hands the
-- stream over is decided by the tag and by the whole of the setup, of which nothing more is judged here.
local function show_handover(tree, range)
  local handover = tree:add(fields.handover, range)
  local at, digits = range:raw():sub(#HANDOVER + 1):match(SETUP)
  if digits then
    handover:add(fields.next_stream, range(#HANDOVER + at - 1, #digits), UInt64.fromhex(digits))
  end
  if range:len() > #HANDOVER then
    show_lines(handover, range(#HANDOVER, range:len() - #HANDOVER))
  end
  local said = "to " .. (digits or "no stream")
  handover:append_text(" " .. said)
  return ", handover " .. said
end

-- The payload of a data frame. Says what the column adds for it.
local function read_payload(datagram, tree, length)
  local range = datagram:show(tree, "payload", length)
  return range:raw():sub(1, #HANDOVER) == HANDOVER and show_handover(tree, range) or ""
end

local function read_data(datagram, tree, version)
  local interval = datagram:number(tree, "interval", 4)
  local number = datagram:number(tree, "number", 2)
  local length = datagram:number(tree, "length", 2)
  local more = ""
  if length > MOST_PAYLOAD then
    malformed("length %d is above %d", length, MOST_PAYLOAD)
  elseif length > 0 then
    more = read_payload(datagram, tree, length)
  end
  local count = read_count(datagram, tree, version)
  local tag = version.tag or read_tag_length(datagram, tree)
  local keys = 0
  for chain = 0, count - 1 do
    keys = keys + read_tag_row(datagram, tree, chain, tag, interval)
  end
  datagram:ended()
  return string.format("data %d/%d %d bytes, keys %d", interval, number, length, keys) .. more
end

local function read_disclosure(datagram, tree, version)
  local told, before = {}, -1
  for _ = 1, read_count(datagram, tree, version) do
    local row = tree:add(fields.row, datagram.tvb(datagram.at, 0))
    local from = datagram.at
    local chain = datagram:number(row, "chain", 1)
    if chain <= before then
      malformed("chain %d stands behind chain %d", chain, before)
    end
    local index = datagram:number(row, "index", 4)
    datagram:show(row, "key", KEY)
    row:set_len(datagram.at - from)
    row:append_text(string.format(" of chain %d, index %d", chain, index))
    told[#told + 1] = string.format("%d/%d", chain, index)
    before = chain
  end
  datagram:ended()
  return "disclosure " .. table.concat(told, " ")
end

local function read_frame(datagram, tree)
  local number = datagram:number(tree, "version", 1)
  local version = VERSIONS[number] or malformed("version %d is neither 1 nor 2", number)
  local kind = datagram:number(tree, "kind", 1)
  if kind ~= DATA and kind ~= DISCLOSURE then
    malformed("kind %d is neither 1 nor 2", kind)
  end
  datagram:show(tree, "stream", 8)
  return (kind == DATA and read_data or read_disclosure)(datagram, tree, version)
end

-- The version of an ask or a reply.
local function read_one(datagram, tree)
  local version = datagram:number(tree, "version", 1)
  if version ~= 1 then
    malformed("version %d is not 1", version)
  end
end

local function read_ask(datagram, tree)
  read_one(datagram, tree)
  local t_r = datagram:show(tree, "t_r", 8):uint64()
  datagram:ended()
  return "ask t_r " .. tostring(t_r)
end

local function read_reply(datagram, tree)
  read_one(datagram, tree)
  local t_r = datagram:show(tree, "t_r", 8):uint64()
  local t_s = datagram:show(tree, "t_s", 8):uint64()
  datagram:show(tree, "tag", 32)
  datagram:ended()
  return string.format("reply t_r %s, t_s %s", tostring(t_r), tostring(t_s))
end

local MAGICS = { [FRAME] = read_frame, [ASK] = read_ask, [REPLY] = read_reply }

-- What reads a datagram of this magic; nothing where it has none.
local function reader_of(tvb)
  return tvb:len() >= 4 and MAGICS[tvb(0, 4):uint()] or nil
end

-- Shows the bytes that weren't read, and why. Says it for the column.
local function stopped(datagram, tree, why)
  if type(why) ~= "table" then
    error(why, 0)
  end
  if datagram.at < datagram.held then
    tree:add(fields.unread, datagram.tvb(datagram.at, datagram.held - datagram.at))
  end
  tree:add_proto_expert_info(why.expert, why.text)
  return (why.expert == experts.malformed and "malformed: " or "cut: ") .. why.text
end

-- Shows a datagram that has one of the magics. Says how many of its bytes were taken: all of them, or none.
function tesla.dissector(tvb, pinfo, root)
  local read = reader_of(tvb)
  if not read then
    return 0
  end
  local tree = root:add(tesla, tvb())
  local datagram = setmetatable({ tvb = tvb, at = 0, held = tvb:len(), sent = tvb:reported_len() }, Datagram)
  datagram:show(tree, "magic", 4)
  local whole, said = pcall(read, datagram, tree)
  if not whole then
    said = stopped(datagram, tree, said)
  end
  pinfo.cols.protocol = "TESLA"
  pinfo.cols.info = said
  tree:append_text(", " .. said)
  return tvb:len()
end

tesla:register_heuristic("udp", function(tvb, pinfo, root)
  return tesla.dissector(tvb, pinfo, root) > 0
end)
DissectorTable.get("udp.port"):add_for_decode_as(tesla)
