-- A post-dissector for Wireshark and tshark: shows with each packet of IN its line of VERDICTS.
--
--   tshark -X lua_script:lwaftr.lua -X lua_script1:VERDICTS -r IN -Y 'lwaftr.rule == "no-binding"' -w part.pcap
--   LWAFTR_VERDICTS=VERDICTS wireshark -X lua_script:lwaftr.lua -r IN
--
-- Fields: lwaftr.table, lwaftr.verdict, lwaftr.rule (of a drop), lwaftr.limited (its error was kept back), lwaftr.packets (packets written for
-- it), lwaftr.never (its datagram began here and never became whole: expired or unfinished).
local protocol = Proto("lwaftr", "lwaftr verdict")
local fields = {
    table = ProtoField.uint32("lwaftr.table", "Table in force"),
    verdict = ProtoField.string("lwaftr.verdict", "Verdict"),
    rule = ProtoField.string("lwaftr.rule", "Rule"),
    limited = ProtoField.bool("lwaftr.limited", "Error kept back by the limit"),
    packets = ProtoField.uint32("lwaftr.packets", "Packets written"),
    never = ProtoField.string("lwaftr.never", "Datagram never became whole"),
}
protocol.fields = { fields.table, fields.verdict, fields.rule, fields.limited, fields.packets, fields.never }

local words = { ... }
local path = words[1] or os.getenv("LWAFTR_VERDICTS")
-- for each record what its line says behind the number, which few lines say in another way; and what became of a datagram that began with it
local said, never = {}, {}

local function read()
    local file, why = io.open(path or "")
    if not file then
        error("lwaftr.lua: name VERDICTS by -X lua_script1:VERDICTS or LWAFTR_VERDICTS: " .. tostring(why))
    end
    for line in file:lines() do
        local record, rest = line:match("^(%d+) (%d+ %l+ .+)$")
        local what, first = line:match("^(%l+) (%d+)$")
        if record then
            said[tonumber(record)] = rest
        elseif first then
            never[tonumber(first)] = what
        else
            error("lwaftr.lua: " .. path .. " has a line that is none of VERDICTS: " .. line:sub(1, 60))
        end
    end
    file:close()
end
read()

local values_of = {}

-- The values of the fields, by what a line says.
local function values(text)
    local found = values_of[text]
    if not found then
        local number, verdict, rest = text:match("^(%d+) (%l+) (.+)$")
        found = { table = tonumber(number), verdict = verdict, packets = tonumber(rest:match("(%d+)$")) }
        if verdict == "drop" then
            found.rule = rest:match("^(%S+)")
            found.limited = rest:find(" limited ", 1, true) ~= nil
        end
        values_of[text] = found
    end
    return found
end

function protocol.dissector(buffer, packet, tree)
    local record = packet.number - 1
    if not said[record] then
        return
    end
    local found = values(said[record])
    local shown = tree:add(protocol, "lwaftr: record " .. record .. " " .. said[record])
    shown:add(fields.table, found.table)
    shown:add(fields.verdict, found.verdict)
    shown:add(fields.packets, found.packets)
    if found.rule then
        shown:add(fields.rule, found.rule)
        shown:add(fields.limited, found.limited)
    end
    if never[record] then
        shown:add(fields.never, never[record])
    end
end
register_postdissector(protocol)
