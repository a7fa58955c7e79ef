-- A Wireshark dissector of DLMS/COSEM over TCP: frames of the wrapper (IEC 62056-4-7), associations
-- and releases in BER, and GET, SET, ACTION and exceptions in A-XDR (IEC 62056-5-3). Ciphered APDUs
-- and services that Wesplina's meter does not have are named and not dissected. The named objects
-- are those of the meter, their attributes and methods those of the Blue Book (IEC 62056-6-2).
--
-- usage: wireshark -X lua_script:dlms_cosem.lua     (tshark has the same option)
--     or copy this file to the personal Lua plugins: Help > About Wireshark > Folders
--
-- Every field has the prefix dlms_cosem. The preferences are dlms_cosem.port (4059) and
-- dlms_cosem.show_password (off: the word "hidden" is shown instead of a password).
--
-- The file's parts: names, fields, a cursor over bytes, Data, parts of the services, transfers in
-- blocks, the services, associations, answers and their requests, whole frames, registration.

local protocol = Proto("dlms_cosem", "DLMS/COSEM over TCP")

protocol.prefs.port = Pref.uint("TCP port", 4059, "The TCP port of the meters")
protocol.prefs.show_password = Pref.bool("Show passwords", false,
    "Whether the password of an association request is shown")

-- ---- names

-- The names that a frame's wrapper ports have on the client's side and on the server's.
local CLIENT_PORTS = {[0] = "no station", [1] = "management client", [16] = "public client"}
local SERVER_PORTS = {[0] = "no station", [1] = "management logical device", [127] = "all stations"}

-- The APDUs that this file reads, and those that it only names.
local APDUS = {
    [0x60] = "AARQ", [0x61] = "AARE", [0x62] = "RLRQ", [0x63] = "RLRE",
    [0xC0] = "GET-Request", [0xC1] = "SET-Request", [0xC3] = "ACTION-Request",
    [0xC4] = "GET-Response", [0xC5] = "SET-Response", [0xC7] = "ACTION-Response",
    [0xD8] = "Exception-Response",
}
local OTHER_APDUS = {
    [0x01] = "InitiateRequest", [0x08] = "InitiateResponse", [0x0E] = "ConfirmedServiceError",
    [0x0F] = "Data-Notification", [0x21] = "glo-InitiateRequest", [0x28] = "glo-InitiateResponse",
    [0xC2] = "Event-Notification-Request",
    [0xC8] = "glo-GET-Request", [0xC9] = "glo-SET-Request", [0xCB] = "glo-ACTION-Request",
    [0xCC] = "glo-GET-Response", [0xCD] = "glo-SET-Response", [0xCF] = "glo-ACTION-Response",
    [0xD0] = "ded-GET-Request", [0xD1] = "ded-SET-Request", [0xD3] = "ded-ACTION-Request",
    [0xD4] = "ded-GET-Response", [0xD5] = "ded-SET-Response", [0xD7] = "ded-ACTION-Response",
    [0xD9] = "Access-Request", [0xDA] = "Access-Response", [0xDB] = "General-Glo-Ciphering",
    [0xDC] = "General-Ded-Ciphering", [0xDD] = "General-Ciphering", [0xDF] = "General-Signing",
    [0xE0] = "General-Block-Transfer",
}
local REQUESTS = {[0x60] = true, [0x62] = true, [0xC0] = true, [0xC1] = true, [0xC3] = true}

-- Data-Access-Result and Action-Result, which differ in 15 to 19.
local ACCESS_RESULTS = {
    [0] = "success", [1] = "hardware-fault", [2] = "temporary-failure", [3] = "read-write-denied",
    [4] = "object-undefined", [9] = "object-class-inconsistent", [11] = "object-unavailable",
    [12] = "type-unmatched", [13] = "scope-of-access-violated", [14] = "data-block-unavailable",
    [15] = "long-get-aborted", [16] = "no-long-get-in-progress", [17] = "long-set-aborted",
    [18] = "no-long-set-in-progress", [19] = "data-block-number-invalid", [250] = "other-reason",
}
local ACTION_RESULTS = {
    [0] = "success", [1] = "hardware-fault", [2] = "temporary-failure", [3] = "read-write-denied",
    [4] = "object-undefined", [9] = "object-class-inconsistent", [11] = "object-unavailable",
    [12] = "type-unmatched", [13] = "scope-of-access-violated", [14] = "data-block-unavailable",
    [15] = "long-action-aborted", [16] = "no-long-action-in-progress", [250] = "other-reason",
}
local STATE_ERRORS = {[1] = "service-not-allowed", [2] = "service-unknown"}
local SERVICE_ERRORS = {
    [1] = "operation-not-possible", [2] = "service-not-supported", [3] = "other-reason",
    [4] = "pdu-too-long", [5] = "deciphering-error", [6] = "invocation-counter-error",
}

-- The result of an association, and the diagnostics of the service user and of the provider.
local ASSOCIATION_RESULTS = {
    [0] = "accepted", [1] = "rejected-permanent", [2] = "rejected-transient",
}
local USER_DIAGNOSTICS = {
    [0] = "null", [1] = "no-reason-given", [2] = "application-context-name-not-supported",
    [3] = "calling-AP-title-not-recognized",
    [4] = "calling-AP-invocation-identifier-not-recognized",
    [5] = "calling-AE-qualifier-not-recognized",
    [6] = "calling-AE-invocation-identifier-not-recognized",
    [7] = "called-AP-title-not-recognized",
    [8] = "called-AP-invocation-identifier-not-recognized",
    [9] = "called-AE-qualifier-not-recognized",
    [10] = "called-AE-invocation-identifier-not-recognized",
    [11] = "authentication-mechanism-name-not-recognised",
    [12] = "authentication-mechanism-name-required",
    [13] = "authentication-failure", [14] = "authentication-required",
}
local PROVIDER_DIAGNOSTICS = {
    [0] = "null", [1] = "no-reason-given", [2] = "no-common-acse-version",
}
local INITIATE_ERRORS = {
    [0] = "other", [1] = "dlms-version-too-low", [2] = "incompatible-conformance",
    [3] = "pdu-size-too-short", [4] = "refused-by-the-VDE-handler",
}
local REQUEST_REASONS = {[0] = "normal", [1] = "urgent", [30] = "user-defined"}
local RESPONSE_REASONS = {[0] = "normal", [1] = "not-finished", [30] = "user-defined"}

-- Application contexts and authentication mechanisms, by their object identifiers.
local CONTEXTS = {
    ["2.16.756.5.8.1.1"] = "logical names, no ciphering",
    ["2.16.756.5.8.1.2"] = "short names, no ciphering",
    ["2.16.756.5.8.1.3"] = "logical names, with ciphering",
    ["2.16.756.5.8.1.4"] = "short names, with ciphering",
}
local LOW_LEVEL = "2.16.756.5.8.2.1"
local MECHANISMS = {
    ["2.16.756.5.8.2.0"] = "lowest-level security",
    [LOW_LEVEL] = "low-level security",
    ["2.16.756.5.8.2.2"] = "high-level security",
    ["2.16.756.5.8.2.3"] = "high-level security, MD5",
    ["2.16.756.5.8.2.4"] = "high-level security, SHA-1",
    ["2.16.756.5.8.2.5"] = "high-level security, GMAC",
    ["2.16.756.5.8.2.6"] = "high-level security, SHA-256",
    ["2.16.756.5.8.2.7"] = "high-level security, ECDSA",
}

-- The bits of the conformance block, from bit 0, the highest.
local CONFORMANCE = {
    "reserved-zero", "general-protection", "general-block-transfer", "read", "write",
    "unconfirmed-write", "delta-value-encoding", "reserved-seven", "attribute0-supported-with-set",
    "priority-mgmt-supported", "attribute0-supported-with-get", "block-transfer-with-get-or-read",
    "block-transfer-with-set-or-write", "block-transfer-with-action", "multiple-references",
    "information-report", "data-notification", "access", "parameterized-access", "get", "set",
    "selective-access", "event-notification", "action",
}

-- The classes of the meter's objects, with their attributes and methods in the order of their
-- numbers, from 1.
local CLASSES = {
    [1] = {name = "Data", attributes = {"logical_name", "value"}, methods = {}},
    [3] = {name = "Register", attributes = {"logical_name", "value", "scaler_unit"},
        methods = {"reset"}},
    [9] = {name = "Script table", attributes = {"logical_name", "scripts"}, methods = {"execute"}},
    [15] = {name = "Association LN",
        attributes = {"logical_name", "object_list", "associated_partners_id",
            "application_context_name", "xDLMS_context_info", "authentication_mechanism_name",
            "secret", "association_status", "security_setup_reference", "user_list",
            "current_user"},
        methods = {"reply_to_HLS_authentication", "change_HLS_secret", "add_object",
            "remove_object", "add_user", "remove_user"}},
    [22] = {name = "Single action schedule",
        attributes = {"logical_name", "executed_script", "type", "execution_time"}, methods = {}},
    [70] = {name = "Disconnect control",
        attributes = {"logical_name", "output_state", "control_state", "control_mode"},
        methods = {"remote_disconnect", "remote_reconnect"}},
    [71] = {name = "Limiter",
        attributes = {"logical_name", "monitored_value", "threshold_active", "threshold_normal",
            "threshold_emergency", "min_over_threshold_duration", "min_under_threshold_duration",
            "emergency_profile", "emergency_profile_group_id_list", "emergency_profile_active",
            "actions"},
        methods = {}},
}

-- The meter's objects, by their logical names.
local OBJECTS = {
    ["0.0.40.0.0.255"] = "association", ["0.0.42.0.0.255"] = "device name",
    ["1.0.1.7.0.255"] = "imported power", ["1.0.2.7.0.255"] = "exported power",
    ["0.0.10.0.106.255"] = "script table", ["0.0.15.0.1.255"] = "schedule 1",
    ["0.1.15.0.1.255"] = "schedule 2", ["0.2.15.0.1.255"] = "schedule 3",
    ["0.3.15.0.1.255"] = "schedule 4", ["0.0.96.3.10.255"] = "disconnect control",
    ["0.0.17.0.0.255"] = "import limiter", ["0.1.17.0.0.255"] = "export limiter",
}

-- ---- fields

local YES_NO = {"yes", "no"}
local CLASS_NAMES = {}
for number, class in pairs(CLASSES) do CLASS_NAMES[number] = class.name end
local APDU_NAMES = {}
for _, names in ipairs({APDUS, OTHER_APDUS}) do
    for tag, name in pairs(names) do APDU_NAMES[tag] = name end
end

local function abbreviation(name) return "dlms_cosem." .. name end
local function field(kind, name, label, ...)
    return ProtoField[kind](abbreviation(name), label, ...)
end
local function number_field(kind, name, label, names)
    return field(kind, name, label, base.DEC, names)
end

local fields = {
    version = number_field("uint16", "version", "Version"),
    source = number_field("uint16", "source", "Source port"),
    destination = number_field("uint16", "destination", "Destination port"),
    length = number_field("uint16", "length", "Length"),
    tag = field("uint8", "tag", "APDU", base.HEX, APDU_NAMES),
    undissected = field("bytes", "undissected", "Undissected"),
    request_in = ProtoField.framenum(abbreviation("request_in"), "Request in", base.NONE,
        frametype.REQUEST),
    -- services
    form = number_field("uint8", "form", "Form"),
    invoke = field("uint8", "invoke_id_and_priority", "Invoke-Id-And-Priority", base.HEX),
    invoke_id = field("uint8", "invoke_id", "Invoke-Id", base.DEC, nil, 0x0F),
    confirmed = field("bool", "confirmed", "Confirmed", 8, YES_NO, 0x40),
    high_priority = field("bool", "high_priority", "High priority", 8, YES_NO, 0x80),
    class = number_field("uint16", "class", "Class", CLASS_NAMES),
    name = field("string", "name", "Logical name"),
    attribute = number_field("int8", "attribute", "Attribute"),
    method = number_field("int8", "method", "Method"),
    has_selection = field("bool", "has_selection", "Selective access", base.NONE, YES_NO),
    selector = number_field("uint8", "selector", "Selector"),
    has_parameter = field("bool", "has_parameter", "Parameter", base.NONE, YES_NO),
    has_return = field("bool", "has_return", "Return parameter", base.NONE, YES_NO),
    count = number_field("uint32", "count", "Items"),
    choice = number_field("uint8", "choice", "Choice"),
    access_result = number_field("uint8", "access_result", "Data-Access-Result", ACCESS_RESULTS),
    action_result = number_field("uint8", "action_result", "Action-Result", ACTION_RESULTS),
    last_block = field("bool", "last_block", "Last block", base.NONE, YES_NO),
    block_number = number_field("uint32", "block_number", "Block number"),
    raw = field("bytes", "raw", "Raw data"),
    joined = number_field("uint32", "joined", "Joined blocks"),
    state_error = number_field("uint8", "state_error", "State error", STATE_ERRORS),
    service_error = number_field("uint8", "service_error", "Service error", SERVICE_ERRORS),
    invocation_counter = number_field("uint32", "invocation_counter", "Invocation counter"),
    -- associations
    context = field("string", "context", "Application context"),
    mechanism = field("string", "mechanism", "Authentication mechanism"),
    acse_requirements = field("bytes", "acse_requirements", "ACSE requirements"),
    password = field("string", "password", "Password"),
    authentication = field("bytes", "authentication", "Authentication value"),
    other_field = field("bytes", "other_field", "Other field"),
    result = number_field("uint8", "result", "Association result", ASSOCIATION_RESULTS),
    user_diagnostic = number_field("uint8", "user_diagnostic", "Diagnostic of the service user",
        USER_DIAGNOSTICS),
    provider_diagnostic = number_field("uint8", "provider_diagnostic",
        "Diagnostic of the service provider", PROVIDER_DIAGNOSTICS),
    request_reason = number_field("uint8", "request_reason", "Reason", REQUEST_REASONS),
    response_reason = number_field("uint8", "response_reason", "Reason", RESPONSE_REASONS),
    information = field("uint8", "information", "User information", base.HEX, APDU_NAMES),
    dedicated_key = field("bytes", "dedicated_key", "Dedicated key"),
    response_allowed = field("bool", "response_allowed", "Response allowed", base.NONE, YES_NO),
    quality_of_service = number_field("int8", "quality_of_service", "Quality of service"),
    dlms_version = number_field("uint8", "dlms_version", "DLMS version"),
    conformance = field("uint24", "conformance", "Conformance", base.HEX),
    pdu_size = number_field("uint16", "pdu_size", "Maximum PDU size"),
    vaa_name = field("uint16", "vaa_name", "VAA name", base.HEX),
    initiate_error = number_field("uint8", "initiate_error", "Initiate error", INITIATE_ERRORS),
}

local conformance_bits = {}
for index, name in ipairs(CONFORMANCE) do
    conformance_bits[index] = field("bool", "conformance." .. name:gsub("-", "_"), name, 24,
        YES_NO, 2 ^ (24 - index))
end

local experts = {
    malformed = ProtoExpert.new(abbreviation("malformed"), "Malformed", expert.group.MALFORMED,
        expert.severity.ERROR),
    cut = ProtoExpert.new(abbreviation("cut"), "Cut off", expert.group.UNDECODED,
        expert.severity.WARN),
}

-- ---- a cursor over bytes

-- What a reader raises if the bytes are not what it reads: an error with a text for the user.
local Fault = {}

local function malformed(text, ...)
    error(setmetatable({text = text:format(...)}, Fault), 0)
end

-- A number of things, such as "1 byte".
local function counted(count, thing)
    return ("%d %s%s"):format(count, thing, count == 1 and "" or "s")
end

-- The limit of values and items of lists that are shown of a frame.
local MAX_VALUES = 100000

-- Bytes of a Tvb from `at` to before `stop`, and the number of values that were read.
local Cursor = {}
Cursor.__index = Cursor

local function cursor_over(tvb, at, stop)
    return setmetatable({tvb = tvb, at = at, stop = stop, values = 0}, Cursor)
end

function Cursor:left() return self.stop - self.at end

-- The next bytes, as a range.
function Cursor:take(count, what)
    if count > self:left() then
        malformed("%s: expected %s, found %d", what, counted(count, "byte"), self:left())
    end
    local range = self.tvb(self.at, count)
    self.at = self.at + count
    return range
end

function Cursor:byte(what) return self:take(1, what):uint() end

-- The range from an earlier place to this one.
function Cursor:since(start) return self.tvb(start, self.at - start) end

-- A length or count: one byte below 80 hex, or 81 to 84 hex and one to four bytes.
function Cursor:length(what)
    local first = self:byte(what)
    if first < 0x80 then return first end
    if first == 0x80 or first > 0x84 then malformed("%s: 0x%02X is no length", what, first) end
    return self:take(first - 0x80, what):uint()
end

-- The next bytes as a cursor of their own, which the caller reads to the end.
function Cursor:inner(count, what)
    local range_start = self.at
    self:take(count, what)
    return cursor_over(self.tvb, range_start, self.at)
end

function Cursor:finish(what)
    if self:left() > 0 then malformed("%s after %s", counted(self:left(), "byte"), what) end
end

-- Counts a value that is shown.
function Cursor:count_value()
    self.values = self.values + 1
    if self.values > MAX_VALUES then malformed("more than %d values", MAX_VALUES) end
end

-- Reads one field of a fixed size into the tree; returns its value and its item.
local function add_fixed(cursor, tree, given, size, what)
    local range = cursor:take(size, what)
    return range:uint(), tree:add(given, range)
end

-- A flag: 0 is false, any other byte is true.
local function add_flag(cursor, tree, given, what)
    local range = cursor:take(1, what)
    local is_set = range:uint() ~= 0
    return is_set, tree:add(given, range, is_set)
end

local function append_name(item, name)
    if name then item:append_text(" (" .. name .. ")") end
end

-- ---- Data (IEC 62056-6-2, common data types), in A-XDR

-- The limit of arrays and structures around a Data.
local MAX_NESTING = 32
local data_fields = {}
local types = {}

local function data_field(kind, name, ...)
    local made = field(kind, "data." .. name:gsub("-", "_"), name, ...)
    data_fields[#data_fields + 1] = made
    return made
end

local VALUE_FORMATS = {uint = "%d", int = "%d", float = "%g"}

-- A number of a fixed size. `value_of` is the method of a range that returns the value.
local function number_type(tag, name, size, kind, value_of, ...)
    local given, format = data_field(kind, name, ...), VALUE_FORMATS[value_of]
    types[tag] = function(cursor, tree)
        local range = cursor:take(size, name)
        local value = range[value_of](range)
        tree:add(given, range)
        return name .. " " .. (format and format:format(value) or tostring(value))
    end
end

local function boolean_type(tag, name)
    local given = data_field("bool", name, base.NONE, {"true", "false"})
    types[tag] = function(cursor, tree)
        local range = cursor:take(1, name)
        local is_set = range:uint() ~= 0
        tree:add(given, range, is_set)
        return name .. " " .. tostring(is_set)
    end
end

local function obis_text(range)
    local bytes = {}
    for index = 0, 5 do bytes[index + 1] = range(index, 1):uint() end
    return table.concat(bytes, ".")
end

-- A string of text that people can read, or nothing.
local function printable(range)
    local text = range:raw()
    return text:match("^[%g ]+$") and '"' .. text .. '"'
end

-- What an octet-string may mean: the logical name of an object, or a text.
local function octets_name(range)
    local name = range:len() == 6 and obis_text(range)
    if name and OBJECTS[name] then return name .. ", " .. OBJECTS[name] end
    return range:len() > 0 and printable(range)
end

local function string_type(tag, name, kind, encoding)
    local given = data_field(kind, name)
    types[tag] = function(cursor, tree)
        local range = cursor:take(cursor:length(name), name)
        if kind == "bytes" then
            append_name(tree:add(given, range), octets_name(range))
        else
            tree:add_packet_field(given, range, encoding)
        end
        return name .. ", " .. counted(range:len(), "byte")
    end
end

-- The first bits of bytes, as the digits 0 and 1.
local function bits_text(range, count)
    local digits = {}
    for index = 0, count - 1 do
        local byte = range(math.floor(index / 8), 1):uint()
        digits[index + 1] = math.floor(byte / 2 ^ (7 - index % 8)) % 2 == 1 and "1" or "0"
    end
    return table.concat(digits)
end

local function bits_type(tag, name)
    local given = data_field("string", name)
    types[tag] = function(cursor, tree)
        local count = cursor:length(name)
        local range = cursor:take(math.floor((count + 7) / 8), name)
        tree:add(given, range, bits_text(range, count))
        return name .. ", " .. counted(count, "bit")
    end
end

-- A byte of a date or time: FF hex means any, FD and FE hex are rules such as the last day.
local function part_text(range)
    local byte = range:uint()
    return byte == 0xFF and "*" or (byte >= 0xFD and "%X" or "%02d"):format(byte)
end

local WEEKDAYS = {"Mon", "Tue", "Wed", "Thu", "Fri", "Sat", "Sun"}

-- The date of five bytes; the last one is the day of the week.
local function date_text(range)
    local year, weekday = range(0, 2):uint(), range(4, 1)
    return ("%s-%s-%s %s"):format(year == 0xFFFF and "*" or ("%04d"):format(year),
        part_text(range(2, 1)), part_text(range(3, 1)),
        WEEKDAYS[weekday:uint()] or part_text(weekday))
end

-- The time of four bytes; the last one counts hundredths of a second.
local function time_text(range)
    return ("%s:%s:%s.%s"):format(part_text(range(0, 1)), part_text(range(1, 1)),
        part_text(range(2, 1)), part_text(range(3, 1)))
end

-- The date and time of twelve bytes, with the deviation from UTC in minutes and the clock's status.
local function date_time_text(range)
    local deviation = range(9, 2):int()
    return ("%s %s, deviation %s, status %02X"):format(date_text(range(0, 5)),
        time_text(range(5, 4)), deviation == -0x8000 and "*" or ("%d"):format(deviation),
        range(11, 1):uint())
end

local function clock_type(tag, name, size, text_of)
    local given = data_field("string", name)
    types[tag] = function(cursor, tree)
        local range = cursor:take(size, name)
        tree:add(given, range, text_of(range))
        return name .. " " .. text_of(range)
    end
end

-- Adds a Data, and returns its type and value in short. `depth` is the number of arrays and
-- structures around it.
local function add_data(cursor, tree, depth)
    local start = cursor.at
    cursor:count_value()
    local tag = cursor:byte("the type of a Data")
    local reader = types[tag] or malformed("0x%02X is no known type of Data", tag)
    return reader(cursor, tree, start, depth or 0)
end

local function list_type(tag, name)
    local given = data_field("uint32", name, base.DEC)
    types[tag] = function(cursor, tree, start, depth)
        if depth >= MAX_NESTING then malformed("more than %d nested lists", MAX_NESTING) end
        local count = cursor:length(name)
        local item = tree:add(given, cursor:since(start), count)
        item:append_text(count == 1 and " item" or " items")
        for _ = 1, count do add_data(cursor, item, depth + 1) end
        item:set_len(cursor.at - start)
        return name .. ", " .. counted(count, "item")
    end
end

local function null_type(tag, name)
    local given = data_field("none", name)
    types[tag] = function(cursor, tree, start)
        tree:add(given, cursor:since(start))
        return name
    end
end

null_type(0, "null-data")
list_type(1, "array")
list_type(2, "structure")
boolean_type(3, "boolean")
bits_type(4, "bit-string")
number_type(5, "double-long", 4, "int32", "int")
number_type(6, "double-long-unsigned", 4, "uint32", "uint")
string_type(9, "octet-string", "bytes")
string_type(10, "visible-string", "string", ENC_ASCII)
string_type(12, "utf8-string", "string", ENC_UTF_8)
number_type(13, "bcd", 1, "uint8", "uint", base.HEX)
number_type(15, "integer", 1, "int8", "int")
number_type(16, "long", 2, "int16", "int")
number_type(17, "unsigned", 1, "uint8", "uint")
number_type(18, "long-unsigned", 2, "uint16", "uint")
number_type(20, "long64", 8, "int64", "int64")
number_type(21, "long64-unsigned", 8, "uint64", "uint64")
number_type(22, "enum", 1, "uint8", "uint")
number_type(23, "float32", 4, "float", "float")
number_type(24, "float64", 8, "double", "float")
clock_type(25, "date-time", 12, date_time_text)
clock_type(26, "date", 5, date_text)
clock_type(27, "time", 4, time_text)
null_type(255, "dont-care")

-- ---- parts of the services

-- A part reads its bytes into the tree; `apdu` is what is known of the whole APDU:
--     pinfo, frame      the packet, and a name of the frame that no other has
--     talk              the name of its conversation
--     tag, title        the tag, and the name of the service and form
--     invoke_id         the Invoke-Id-And-Priority, if the APDU has one
--     notes             words for the column Info

local function note(apdu, text) apdu.notes[#apdu.notes + 1] = text end

local function add_invoke_id(cursor, tree, apdu)
    local range = cursor:take(1, "Invoke-Id-And-Priority")
    local item = tree:add(fields.invoke, range)
    apdu.invoke_id = range:uint()
    for _, given in ipairs({fields.invoke_id, fields.confirmed, fields.high_priority}) do
        item:add(given, range)
    end
end

-- A class, a logical name, and the number of an attribute or a method.
local function add_reference(cursor, tree, apdu, given, members)
    local class = add_fixed(cursor, tree, fields.class, 2, "a class")
    local range = cursor:take(6, "a logical name")
    local name = obis_text(range)
    append_name(tree:add(fields.name, range, name), OBJECTS[name])
    local number_range = cursor:take(1, "the number of a " .. members)
    local number = number_range:int()
    local known = CLASSES[class] and CLASSES[class][members .. "s"][number]
    append_name(tree:add(given, number_range), known)
    note(apdu, ("%s.%s"):format(OBJECTS[name] or name, known or ("%d"):format(number)))
end

local function add_method(cursor, tree, apdu)
    add_reference(cursor, tree, apdu, fields.method, "method")
end

-- An attribute with its optional selective access.
local function add_attribute(cursor, tree, apdu)
    add_reference(cursor, tree, apdu, fields.attribute, "attribute")
    local is_selected, item = add_flag(cursor, tree, fields.has_selection, "selective access")
    if is_selected then
        add_fixed(cursor, item, fields.selector, 1, "a selector")
        add_data(cursor, item)
    end
end

local function add_value(cursor, tree, apdu) note(apdu, add_data(cursor, tree)) end

local function add_parameter(cursor, tree, apdu)
    local is_present, item = add_flag(cursor, tree, fields.has_parameter, "a parameter")
    if is_present then add_value(cursor, item, apdu) end
end

local function add_block_number(cursor, tree, apdu)
    note(apdu, ("block %d"):format(add_fixed(cursor, tree, fields.block_number, 4,
        "a block number")))
end

-- The name of a number, or what it is and the number.
local function name_of(names, number, what)
    return names[number] or ("%s %d"):format(what, number)
end

-- A result by its names, which are also a note.
local function result_part(given, names)
    return function(cursor, tree, apdu)
        local result = add_fixed(cursor, tree, given, 1, "a result")
        note(apdu, name_of(names, result, "result"))
    end
end

local add_access_result = result_part(fields.access_result, ACCESS_RESULTS)
local add_action_result = result_part(fields.action_result, ACTION_RESULTS)

-- Get-Data-Result: a Data after 0, a result after 1.
local function add_get_result(cursor, tree, apdu)
    local choice, item = add_fixed(cursor, tree, fields.choice, 1, "Get-Data-Result")
    if choice == 0 then
        append_name(item, "data")
        add_value(cursor, item, apdu)
    elseif choice == 1 then
        append_name(item, "data-access-result")
        add_access_result(cursor, item, apdu)
    else
        malformed("Get-Data-Result: expected 0 or 1, found %d", choice)
    end
end

local function add_return(cursor, tree, apdu)
    local is_present, item = add_flag(cursor, tree, fields.has_return, "a return parameter")
    if is_present then add_get_result(cursor, item, apdu) end
end

local function add_action_answer(cursor, tree, apdu)
    add_action_result(cursor, tree, apdu)
    add_return(cursor, tree, apdu)
end

-- A count and that number of parts.
local function list_of(part)
    return function(cursor, tree, apdu)
        local start = cursor.at
        local count = cursor:length("a count")
        local item = tree:add(fields.count, cursor:since(start), count)
        for _ = 1, count do
            cursor:count_value()
            part(cursor, item, apdu)
        end
        item:set_len(cursor.at - start)
    end
end

local add_get_results = list_of(add_get_result)

-- ---- transfers in blocks

-- The transfers of each conversation and service: the reader of the joined bytes, the number of the
-- last block and the bytes so far. Whole transfers by the frame that ends them, since Wireshark
-- reads a packet again when it shows it.
local transfers, wholes = {}, {}

local function transfer_name(apdu, service) return apdu.talk .. " " .. service end

-- Begins a transfer whose joined bytes this part will read.
local function begin_transfer(apdu, service, part)
    if not apdu.pinfo.visited then
        transfers[transfer_name(apdu, service)] = {part = part, number = 0, bytes = nil}
    end
end

-- Adds a block to its transfer, and keeps the whole if it is the last one.
local function join(apdu, service, number, is_last, range)
    local name = transfer_name(apdu, service)
    local transfer = transfers[name]
    if not transfer then return end
    if number ~= transfer.number + 1 then
        transfers[name] = nil
        return
    end
    transfer.number = number
    if range:len() > 0 then
        local bytes = range:bytes()
        transfer.bytes = transfer.bytes and transfer.bytes .. bytes or bytes
    end
    if is_last then
        transfers[name] = nil
        wholes[apdu.frame] = transfer
    end
end

-- Shows the joined bytes of a transfer under its last block.
local function add_joined(tree, apdu)
    local whole = wholes[apdu.frame]
    if not (whole and whole.bytes) then return end
    local tvb = whole.bytes:tvb("Joined blocks")
    local item = tree:add(fields.joined, tvb(), whole.number)
    item:append_text(", " .. counted(tvb:len(), "byte"))
    local cursor = cursor_over(tvb, 0, tvb:len())
    whole.part(cursor, item, apdu)
    cursor:finish("the value of the joined blocks")
end

-- Adds the raw data of a block, and of its transfer if it is the last block.
local function add_raw(cursor, tree, apdu, service, number, is_last)
    local range = cursor:take(cursor:length("raw data"), "raw data")
    tree:add(fields.raw, range)
    if not apdu.pinfo.visited then join(apdu, service, number, is_last, range) end
    if is_last then add_joined(tree, apdu) end
end

local function add_block_head(cursor, tree, apdu)
    local is_last = add_flag(cursor, tree, fields.last_block, "last block")
    local number = add_fixed(cursor, tree, fields.block_number, 4, "a block number")
    note(apdu, ("block %d%s"):format(number, is_last and ", the last" or ""))
    return is_last, number
end

-- DataBlock-SA of a request or an ACTION's response. A first block names the part that reads the
-- joined bytes.
local function block_of(service, part)
    return function(cursor, tree, apdu)
        if part then begin_transfer(apdu, service, part) end
        local is_last, number = add_block_head(cursor, tree, apdu)
        add_raw(cursor, tree, apdu, service, number, is_last)
    end
end

-- DataBlock-G: raw data after 0, a result after 1.
local function add_get_block(cursor, tree, apdu)
    local is_last, number = add_block_head(cursor, tree, apdu)
    local choice, item = add_fixed(cursor, tree, fields.choice, 1, "the result of a block")
    if choice == 0 then
        append_name(item, "raw-data")
        add_raw(cursor, item, apdu, "GET", number, is_last)
    elseif choice == 1 then
        append_name(item, "data-access-result")
        add_access_result(cursor, item, apdu)
    else
        malformed("the result of a block: expected 0 or 1, found %d", choice)
    end
end

-- No bytes: the request whose answer may come in blocks that this part reads.
local function asks_for(part)
    return function(_, _, apdu) begin_transfer(apdu, "GET", part) end
end

-- ---- the services

-- Each form has its number, its name, and the parts after the Invoke-Id-And-Priority.
local FORMS = {
    [0xC0] = {
        {"normal", asks_for(add_value), add_attribute},
        {"next", add_block_number},
        {"with-list", asks_for(add_get_results), list_of(add_attribute)},
    },
    [0xC1] = {
        {"normal", add_attribute, add_value},
        {"with-first-datablock", add_attribute, block_of("SET", add_value)},
        {"with-datablock", block_of("SET")},
        {"with-list", list_of(add_attribute), list_of(add_value)},
        {"with-list-and-first-datablock", list_of(add_attribute),
            block_of("SET", list_of(add_value))},
    },
    [0xC3] = {
        {"normal", add_method, add_parameter},
        {"next-pblock", add_block_number},
        {"with-list", list_of(add_method), list_of(add_value)},
        {"with-first-pblock", add_method, block_of("ACTION", add_value)},
        {"with-list-and-first-pblock", list_of(add_method),
            block_of("ACTION", list_of(add_value))},
        {"with-pblock", block_of("ACTION")},
    },
    [0xC4] = {
        {"normal", add_get_result},
        {"with-datablock", add_get_block},
        {"with-list", add_get_results},
    },
    [0xC5] = {
        {"normal", add_access_result},
        {"datablock", add_block_number},
        {"last-datablock", add_access_result, add_block_number},
        {"last-datablock-with-list", list_of(add_access_result), add_block_number},
        {"with-list", list_of(add_access_result)},
    },
    [0xC7] = {
        {"normal", add_action_answer},
        {"with-pblock", block_of("ACTION-Response")},
        {"with-list", list_of(add_action_answer)},
        {"next-pblock", add_block_number},
    },
}

local function add_service(cursor, tree, apdu)
    local number, item = add_fixed(cursor, tree, fields.form, 1, "the form of a service")
    local form = FORMS[apdu.tag][number]
    if not form then malformed("%d is no form of a %s", number, APDUS[apdu.tag]) end
    append_name(item, form[1])
    apdu.title = apdu.title .. " " .. form[1]
    add_invoke_id(cursor, tree, apdu)
    for index = 2, #form do form[index](cursor, tree, apdu) end
end

local function add_exception(cursor, tree, apdu)
    local state = add_fixed(cursor, tree, fields.state_error, 1, "the state error")
    local service = add_fixed(cursor, tree, fields.service_error, 1, "the service error")
    note(apdu, name_of(STATE_ERRORS, state, "state error"))
    note(apdu, name_of(SERVICE_ERRORS, service, "service error"))
    if service == 6 then
        add_fixed(cursor, tree, fields.invocation_counter, 4, "the invocation counter")
    end
end

-- ---- associations

local function add_optional_byte(cursor, tree, given, size, what)
    if cursor:byte(what) ~= 0 then add_fixed(cursor, tree, given, size, what) end
end

-- The conformance block: its tag, its length, the number of unused bits, and 24 bits.
local function add_conformance(cursor, tree)
    local head = cursor:take(4, "the conformance block"):bytes():tohex()
    if head ~= "5F1F0400" then malformed("conformance: expected 5F1F0400, found %s", head) end
    local range = cursor:take(3, "the conformance block")
    local item = tree:add(fields.conformance, range)
    for _, given in ipairs(conformance_bits) do item:add(given, range) end
end

local function add_initiate_request(cursor, tree)
    if cursor:byte("a dedicated key") ~= 0 then
        tree:add(fields.dedicated_key, cursor:take(cursor:length("a dedicated key"), "its bytes"))
    end
    if cursor:byte("response allowed") ~= 0 then
        add_flag(cursor, tree, fields.response_allowed, "response allowed")
    end
    add_optional_byte(cursor, tree, fields.quality_of_service, 1, "the quality of service")
    add_fixed(cursor, tree, fields.dlms_version, 1, "the DLMS version")
    add_conformance(cursor, tree)
    add_fixed(cursor, tree, fields.pdu_size, 2, "the maximum PDU size")
end

local function add_initiate_response(cursor, tree)
    add_optional_byte(cursor, tree, fields.quality_of_service, 1, "the quality of service")
    add_fixed(cursor, tree, fields.dlms_version, 1, "the DLMS version")
    add_conformance(cursor, tree)
    add_fixed(cursor, tree, fields.pdu_size, 2, "the maximum PDU size")
    add_fixed(cursor, tree, fields.vaa_name, 2, "the VAA name")
end

-- ConfirmedServiceError ::= initiateError [1] ServiceError, of which initiate [6] is read.
local function add_initiate_error(cursor, tree, apdu)
    local head = cursor:take(2, "a ConfirmedServiceError"):bytes():tohex()
    if head ~= "0106" then malformed("ConfirmedServiceError: expected 0106, found %s", head) end
    local number = add_fixed(cursor, tree, fields.initiate_error, 1, "the error")
    note(apdu, name_of(INITIATE_ERRORS, number, "initiate error"))
end

local INFORMATION = {
    [0x01] = add_initiate_request, [0x08] = add_initiate_response, [0x0E] = add_initiate_error,
}

-- The contents of a BER tag that must be this one and fill the bytes.
local function contents_of(cursor, tag, what)
    local found = cursor:byte(what)
    if found ~= tag then malformed("%s: expected tag %02X, found %02X", what, tag, found) end
    local contents = cursor:inner(cursor:length(what), what)
    cursor:finish(what)
    return contents
end

local function rest_of(cursor, what) return cursor:take(cursor:left(), what) end

-- User information: an octet string whose contents are an APDU of xDLMS.
local function add_information(cursor, tree, apdu)
    local contents = contents_of(cursor, 0x04, "user information")
    local start = contents.at
    local tag, item = add_fixed(contents, tree, fields.information, 1, "user information")
    item:set_len(contents.stop - start)
    if INFORMATION[tag] then
        INFORMATION[tag](contents, item, apdu)
        contents:finish("the user information")
    elseif contents:left() > 0 then
        item:add(fields.undissected, rest_of(contents, "user information"))
    end
end

-- The text of an object identifier.
local function identifier_text(range)
    local first = range(0, 1):uint()
    local parts, number = {math.floor(first / 40), first % 40}, 0
    if first >= 80 then parts = {2, first - 80} end
    for index = 1, range:len() - 1 do
        local byte = range(index, 1):uint()
        number = number * 128 + byte % 128
        if byte < 0x80 then
            parts[#parts + 1] = ("%.0f"):format(number)
            number = 0
        end
    end
    return table.concat(parts, ".")
end

local function add_identifier(cursor, tree, given, names)
    local range = rest_of(cursor, "an object identifier")
    if range:len() == 0 then malformed("an object identifier has no bytes") end
    local text = identifier_text(range)
    append_name(tree:add(given, range, text), names[text])
    return text
end

local function add_context(cursor, tree)
    local contents = contents_of(cursor, 0x06, "the application context")
    add_identifier(contents, tree, fields.context, CONTEXTS)
end

local function add_mechanism(cursor, tree, apdu)
    apdu.mechanism = add_identifier(cursor, tree, fields.mechanism, MECHANISMS)
    note(apdu, MECHANISMS[apdu.mechanism] or apdu.mechanism)
end

-- The authentication value of a request: a password, unless the mechanism is another one.
local function add_password(cursor, tree, apdu)
    local range = rest_of(contents_of(cursor, 0x80, "the authentication value"), "a password")
    if apdu.mechanism and apdu.mechanism ~= LOW_LEVEL then
        tree:add(fields.authentication, range)
    elseif protocol.prefs.show_password then
        tree:add(fields.password, range)
    else
        local item = tree:add(fields.password, range, "hidden")
        item:append_text(", " .. counted(range:len(), "byte"))
    end
end

local function bytes_field(given, name)
    return function(cursor, tree)
        append_name(tree:add(given, rest_of(cursor, name)), name)
    end
end

local function other(name) return bytes_field(fields.other_field, name) end

-- An integer of one byte in BER.
local function integer_of(cursor, what)
    local contents = contents_of(cursor, 0x02, what)
    local range = contents:take(1, what)
    contents:finish(what)
    return range
end

local function add_association_result(cursor, tree, apdu)
    local range = integer_of(cursor, "the association result")
    tree:add(fields.result, range)
    note(apdu, name_of(ASSOCIATION_RESULTS, range:uint(), "result"))
end

local DIAGNOSTICS = {
    [0xA1] = {fields.user_diagnostic, USER_DIAGNOSTICS},
    [0xA2] = {fields.provider_diagnostic, PROVIDER_DIAGNOSTICS},
}

local function add_diagnostic(cursor, tree, apdu)
    local source = cursor:byte("the diagnostic")
    local given = DIAGNOSTICS[source] or malformed("%02X is no source of a diagnostic", source)
    local range = integer_of(cursor:inner(cursor:length("the diagnostic"), "the diagnostic"),
        "the diagnostic")
    cursor:finish("the diagnostic")
    tree:add(given[1], range)
    if range:uint() > 0 then note(apdu, name_of(given[2], range:uint(), "diagnostic")) end
end

local function reason_part(given)
    return function(cursor, tree) add_fixed(cursor, tree, given, 1, "the reason") end
end

-- The fields of each APDU of an association by their tags, and the tags that it must have.
local ASSOCIATION = {
    [0x60] = {needed = {0xA1}, [0x80] = other("protocol-version"), [0xA1] = add_context,
        [0xA2] = other("called-AP-title"), [0xA3] = other("called-AE-qualifier"),
        [0xA4] = other("called-AP-invocation-id"), [0xA5] = other("called-AE-invocation-id"),
        [0xA6] = other("calling-AP-title"), [0xA7] = other("calling-AE-qualifier"),
        [0xA8] = other("calling-AP-invocation-id"), [0xA9] = other("calling-AE-invocation-id"),
        [0x8A] = bytes_field(fields.acse_requirements), [0x8B] = add_mechanism,
        [0xAC] = add_password, [0xBD] = other("implementation-information"),
        [0xBE] = add_information},
    [0x61] = {needed = {0xA1, 0xA2, 0xA3}, [0x80] = other("protocol-version"), [0xA1] = add_context,
        [0xA2] = add_association_result, [0xA3] = add_diagnostic,
        [0xA4] = other("responding-AP-title"), [0xA5] = other("responding-AE-qualifier"),
        [0xA6] = other("responding-AP-invocation-id"),
        [0xA7] = other("responding-AE-invocation-id"),
        [0x88] = bytes_field(fields.acse_requirements), [0x89] = add_mechanism,
        [0xAA] = bytes_field(fields.authentication), [0xBD] = other("implementation-information"),
        [0xBE] = add_information},
    [0x62] = {needed = {}, [0x80] = reason_part(fields.request_reason), [0xBE] = add_information},
    [0x63] = {needed = {}, [0x80] = reason_part(fields.response_reason), [0xBE] = add_information},
}

-- The fields of an AARQ, AARE, RLRQ or RLRE, in any order, each at most once.
local function add_association(cursor, tree, apdu)
    local known, seen = ASSOCIATION[apdu.tag], {}
    local body = cursor:inner(cursor:length(apdu.title), apdu.title)
    while body:left() > 0 do
        local tag = body:byte("a field")
        if tag < 0x80 or tag > 0xBF then malformed("%02X is no tag of a field", tag) end
        if seen[tag] then malformed("the field %02X occurs twice", tag) end
        seen[tag] = true
        local contents = body:inner(body:length("a field"), "a field")
        local part = known[tag] or other(("tag %02X"):format(tag))
        part(contents, tree, apdu)
        contents:finish(("the field %02X"):format(tag))
    end
    for _, tag in ipairs(known.needed) do
        if not seen[tag] then malformed("the field %02X is missing", tag) end
    end
end

-- ---- answers and their requests

-- The tag of the answer to each request; an Exception-Response may answer any.
local EXCEPTION = 0xD8
local ANSWERS = {[0x60] = 0x61, [0x62] = 0x63, [0xC0] = 0xC4, [0xC1] = 0xC5, [0xC3] = 0xC7}

-- The requests of each conversation that have no answer yet, in their order, and the packet of the
-- request of each answer, by the answer's frame.
local waiting, requests = {}, {}

local function is_answer(apdu, request)
    return apdu.tag == EXCEPTION
        or (apdu.tag == request.tag and apdu.invoke_id == request.invoke_id)
end

-- Finds the first request that this APDU answers; those before it have no answer.
local function find_request(apdu, asked)
    for index, request in ipairs(asked) do
        if is_answer(apdu, request) then
            requests[apdu.frame] = request.packet
            for _ = 1, index do table.remove(asked, 1) end
            return
        end
    end
end

-- Keeps a request, or finds that of an answer.
local function pair(apdu)
    local asked, answer = waiting[apdu.talk] or {}, ANSWERS[apdu.tag]
    waiting[apdu.talk] = asked
    if answer then
        asked[#asked + 1] = {tag = answer, invoke_id = apdu.invoke_id, packet = apdu.pinfo.number}
    else
        find_request(apdu, asked)
    end
end

local function add_request_packet(tree, apdu)
    if apdu.talk and not apdu.pinfo.visited then pair(apdu) end
    if requests[apdu.frame] then
        tree:add(fields.request_in, requests[apdu.frame]):set_generated()
    end
end

-- ---- whole frames

local READERS = {}
for tag in pairs(ASSOCIATION) do READERS[tag] = add_association end
for tag in pairs(FORMS) do READERS[tag] = add_service end
READERS[EXCEPTION] = add_exception

local HEADER, VERSION = 8, 1

-- The header, with the names of its ports, which depend on the direction.
local function add_header(cursor, tree)
    local start = cursor.at
    local header = tree:add(cursor.tvb(start, math.min(HEADER, cursor:left())), "Wrapper")
    local version = add_fixed(cursor, header, fields.version, 2, "the version")
    if version ~= VERSION then malformed("wrapper: expected version 1, found %d", version) end
    local source, source_item = add_fixed(cursor, header, fields.source, 2, "the source port")
    local destination, item = add_fixed(cursor, header, fields.destination, 2,
        "the destination port")
    local length = add_fixed(cursor, header, fields.length, 2, "the length")
    header:append_text((": port %d to port %d, %s"):format(source, destination,
        counted(length, "byte")))
    local is_request = cursor:left() > 0 and REQUESTS[cursor.tvb(cursor.at, 1):uint()]
    append_name(source_item, (is_request and CLIENT_PORTS or SERVER_PORTS)[source])
    append_name(item, (is_request and SERVER_PORTS or CLIENT_PORTS)[destination])
    return math.min(source, destination), math.max(source, destination)
end

-- The name of a conversation, which both directions have.
local function talk_of(pinfo, low, high)
    local one = ("%s:%d"):format(tostring(pinfo.src), pinfo.src_port)
    local two = ("%s:%d"):format(tostring(pinfo.dst), pinfo.dst_port)
    if two < one then one, two = two, one end
    return ("%s %s %d %d"):format(one, two, low, high)
end

-- Reads a frame; `apdu` has what was read before a fault.
local function add_frame(cursor, tree, apdu)
    local low, high = add_header(cursor, tree)
    apdu.talk = talk_of(apdu.pinfo, low, high)
    apdu.tag = add_fixed(cursor, tree, fields.tag, 1, "an APDU")
    apdu.title = APDU_NAMES[apdu.tag] or ("APDU %02X"):format(apdu.tag)
    local reader = READERS[apdu.tag]
    if reader then
        reader(cursor, tree, apdu)
        cursor:finish("the " .. APDUS[apdu.tag])
    elseif cursor:left() > 0 then
        tree:add(fields.undissected, rest_of(cursor, "the APDU"))
        note(apdu, "not dissected")
    end
end

-- The number of the packet whose column Info has a summary already.
local summarized

local function add_summary(pinfo, apdu)
    local text = apdu.title
    if #apdu.notes > 0 then text = text .. ": " .. table.concat(apdu.notes, ", ") end
    pinfo.cols.protocol = "DLMS/COSEM"
    pinfo.cols.info:clear()
    pinfo.cols.info:append((summarized == pinfo.number and "; " or "") .. text)
    pinfo.cols.info:fence()
    summarized = pinfo.number
    return text
end

-- Shows a fault where it was found. A frame of which the capture lacks bytes is cut off.
local function add_fault(tree, tvb, fault)
    if getmetatable(fault) ~= Fault then error(fault, 0) end
    if tvb:len() < tvb:reported_len() then
        tree:add_proto_expert_info(experts.cut,
            ("The capture has %d of %d bytes"):format(tvb:len(), tvb:reported_len()))
        return "cut off"
    end
    tree:add_proto_expert_info(experts.malformed, fault.text)
    return "malformed"
end

local function dissect_frame(tvb, pinfo, tree)
    local item = tree:add(protocol, tvb())
    local cursor = cursor_over(tvb, 0, tvb:len())
    local frame = ("%d %d"):format(pinfo.number, tvb:offset())
    local apdu = {pinfo = pinfo, frame = frame, notes = {}, title = "Wrapper"}
    local is_read, fault = pcall(add_frame, cursor, item, apdu)
    if not is_read then
        note(apdu, add_fault(item, tvb, fault))
        if cursor:left() > 0 then item:add(fields.undissected, rest_of(cursor, "the frame")) end
    end
    add_request_packet(item, apdu)
    item:append_text(", " .. add_summary(pinfo, apdu))
    return tvb:len()
end

-- The length of a frame. What follows a wrong version can't be divided into frames.
local function frame_length(tvb, _, offset)
    if tvb(offset, 2):uint() ~= VERSION then return tvb:reported_length_remaining(offset) end
    return HEADER + tvb(offset + 6, 2):uint()
end

-- ---- registration

for _, given in pairs(fields) do table.insert(data_fields, given) end
for _, given in ipairs(conformance_bits) do table.insert(data_fields, given) end
protocol.fields = data_fields
protocol.experts = {experts.malformed, experts.cut}

function protocol.init()
    transfers, wholes, waiting, requests, summarized = {}, {}, {}, {}, nil
end

function protocol.dissector(tvb, _, tree)
    dissect_tcp_pdus(tvb, tree, HEADER, frame_length, dissect_frame)
    return tvb:len()
end

local tcp_ports = DissectorTable.get("tcp.port")
local port = protocol.prefs.port
tcp_ports:add(port, protocol)

function protocol.prefs_changed()
    if port ~= protocol.prefs.port then
        tcp_ports:remove(port, protocol)
        port = protocol.prefs.port
        tcp_ports:add(port, protocol)
    end
end
