-- Frames of stations for Wireshark and tshark, by docs/FORMATS.md: `wireshark -X lua_script:examples/wireshark/vkernel.lua`.
-- A datagram of UDP that opens as a frame is shown as one, whatever its ports.

local vkernel = Proto("vkernel", "Frame of a station of the V kernel")
local f = vkernel.fields

local KINDS = {
    "send", "reply", "pending", "negative", "movedata", "moveack", "moverequest", "movebytes", "movenegative", "askpid", "tellpid",
}

f.source = ProtoField.uint16("vkernel.source", "Source, a station")
f.destination = ProtoField.uint16("vkernel.destination", "Destination, a station; 65535 is all")
f.stamp = ProtoField.uint64("vkernel.stamp", "Stamp, the sender's tick")
f.number = ProtoField.uint64("vkernel.number", "Lamport number")
f.event = ProtoField.uint64("vkernel.event", "Event of the sender")
f.output = ProtoField.uint16("vkernel.output", "Output of that event")
f.name = ProtoField.string("vkernel.name", "Name of the frame")
f.kind = ProtoField.uint8("vkernel.kind", "Kind", base.DEC, KINDS)
f.pid = ProtoField.string("vkernel.pid", "Process")
f.from = ProtoField.string("vkernel.from", "From")
f.to = ProtoField.string("vkernel.to", "To")
f.asker = ProtoField.string("vkernel.asker", "Asker")
f.found = ProtoField.string("vkernel.found", "Found")
f.send = ProtoField.uint64("vkernel.send", "Number of the Send")
f.message = ProtoField.bytes("vkernel.message", "Message")
f.part = ProtoField.bytes("vkernel.part", "First part of the segment")
f.dest = ProtoField.uint32("vkernel.dest", "Place of the bytes in the sender's memory")
f.src = ProtoField.uint32("vkernel.src", "Place in the sender's memory that is read")
f.count = ProtoField.uint16("vkernel.count", "Count of bytes")
f.bytes = ProtoField.bytes("vkernel.bytes", "Bytes")
f.move = ProtoField.uint64("vkernel.move", "Number of the move")
f.total = ProtoField.uint32("vkernel.total", "Bytes of the whole move")
f.offset = ProtoField.uint32("vkernel.offset", "Offset in the move")
f.received = ProtoField.uint32("vkernel.received", "Bytes received")
f.lookup = ProtoField.uint64("vkernel.lookup", "Number of the lookup")
f.logical = ProtoField.uint32("vkernel.logical", "Logical id")

local bad = ProtoExpert.new("vkernel.bad", "These bytes are no packet", expert.group.MALFORMED, expert.severity.ERROR)
vkernel.experts = { bad }

-- The fields of each kind behind its first byte, in their order: a name, and how many bytes it has; "rest" goes to the packet's end.
local EXCHANGE = { { "from", 4 }, { "to", 4 }, { "send", 8 } }
local MOVE = { { "from", 4 }, { "to", 4 }, { "send", 8 }, { "move", 8 } }

local function with(front, ...)
    local all = { table.unpack(front) }
    for _, it in ipairs({ ... }) do
        all[#all + 1] = it
    end
    return all
end

local LAYOUTS = {
    with(EXCHANGE, { "message", 32 }, { "part", "rest" }),
    with(EXCHANGE, { "message", 32 }, { "dest", 4 }, { "count", 2 }, { "bytes", "rest" }),
    EXCHANGE,
    EXCHANGE,
    with(MOVE, { "dest", 4 }, { "total", 4 }, { "offset", 4 }, { "bytes", "rest" }),
    with(MOVE, { "received", 4 }),
    with(MOVE, { "src", 4 }, { "total", 4 }, { "offset", 4 }),
    with(MOVE, { "total", 4 }, { "offset", 4 }, { "bytes", "rest" }),
    MOVE,
    { { "asker", 4 }, { "lookup", 8 }, { "logical", 4 } },
    { { "found", 4 }, { "asker", 4 }, { "lookup", 8 } },
}
local PIDS = { from = true, to = true, asker = true, found = true }

local function pid_of(range)
    return range(0, 2):uint() .. "." .. range(2, 2):uint()
end

-- A message as texts spell it: without the zero bytes at its end.
local function spelled(range)
    local word = range:bytes():tohex(true):gsub("0+$", "")
    if #word % 2 == 1 then
        word = word .. "0"
    end
    return word == "" and "-" or word
end

-- Adds one field of a packet, and returns what a line says of it.
local function add_field(tree, name, range)
    if PIDS[name] then
        tree:add(f[name], range, pid_of(range))
        return pid_of(range)
    end
    tree:add(f[name], range)
    if name == "message" then
        return spelled(range)
    elseif name == "part" or name == "bytes" then
        return range:len() .. " bytes"
    end
    return name .. " " .. tostring(range:uint64())
end

-- Adds the fields of a packet, and returns a line on it, or nothing where they do not fit.
local function add_packet(tree, buffer)
    local kind = buffer(0, 1):uint()
    local layout = LAYOUTS[kind]
    tree:add(f.kind, buffer(0, 1))
    if not layout then
        return nil
    end
    local at, words = 1, { KINDS[kind] }
    for _, field in ipairs(layout) do
        local name, size = field[1], field[2]
        if size == "rest" then
            size = buffer:len() - at
        end
        if size > buffer:len() - at then
            return nil
        end
        if size > 0 then
            words[#words + 1] = add_field(tree, name, buffer(at, size))
        end
        at = at + size
    end
    return at == buffer:len() and table.concat(words, " ") or nil
end

function vkernel.dissector(buffer, info, root)
    if buffer:len() < 33 or buffer:len() > 1152 or buffer(0, 2):string() ~= "VK" then
        return 0
    end
    local tree = root:add(vkernel, buffer())
    local name = string.format("%d:%s.%d", buffer(2, 2):uint(), tostring(buffer(22, 8):uint64()), buffer(30, 2):uint())
    tree:add(f.name, buffer(0, 32), name)
    tree:add(f.source, buffer(2, 2))
    tree:add(f.destination, buffer(4, 2))
    tree:add(f.stamp, buffer(6, 8))
    tree:add(f.number, buffer(14, 8))
    tree:add(f.event, buffer(22, 8))
    tree:add(f.output, buffer(30, 2))
    local packet = buffer(32):tvb()
    local line = add_packet(tree:add(packet(), "Packet"), packet)
    if not line then
        tree:add_proto_expert_info(bad)
    end
    info.cols.protocol = "vkernel"
    info.cols.info = name .. " " .. (line or "no packet")
    return buffer:len()
end

vkernel:register_heuristic("udp", function(buffer, info, root)
    return vkernel.dissector(buffer, info, root) > 0
end)
