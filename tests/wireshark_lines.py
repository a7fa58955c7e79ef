"""What Wireshark must show of a frame, for tests/wireshark.py. A frame is written as parts: the
bytes of a field in hexadecimal, followed by the lines that the field must give. Names and numbers
are those of specs/."""

import re

from captures import TOP

# ---- the names of specs/


def spec(path):
    return (TOP / "crates" / path).read_text()


def words_of(name):
    """A name of specs/ as the standard writes it: no_reason_given as no-reason-given, and
    TypeUnmatched as type-unmatched."""
    return re.sub(r"(?<=[a-z])(?=[A-Z])", "-", name).lower().replace("_", "-")


def names_by_number(rows):
    return {int(number, 0): words_of(name) for name, number in rows}


RESULTS = names_by_number(re.findall(r"(?m)^code_of (\w+) = (\d+)",
                                     spec("cosem_names/specs/ResultCode.antt")))
USER_SIDE, INITIATE_SIDE = spec("acse_ber/specs/Diagnostics.antt").split("-- ---- Initiate")
DIAGNOSTICS = {0: "null", **names_by_number(re.findall(r"(?m)^(\w+) = (\d+)", USER_SIDE))}
INITIATE_ERRORS = names_by_number(re.findall(r"(?m)^(\w+) = (\d+)", INITIATE_SIDE))
OFFERED = {int(bit): name for name, bit in re.findall(
    r"-- ([\w-]+)\nabbrev .*\n\w+ = conformance_bit (\d+)",
    spec("acse_ber/specs/Conformance.antt"))}
TYPES = names_by_number(re.findall(r"(?m)^tag_of \(?(\w+).* = (0x\w+)",
                                   spec("cosem_axdr/specs/Spelling.antt")))
TYPES |= {0: "null-data", 22: "enum"}
TABLE = spec("cosem_names/specs/Table.antt")
CLASS_IDS = {name: int(number)
             for name, number in re.findall(r"(?m)^(\w+) = class_id (\d+)", TABLE)}
CLASS_NAMES = {number: {"data_class": "Data", "association_ln": "Association LN"}.get(
    name, name.replace("_", " ").capitalize()) for name, number in CLASS_IDS.items()}
OBJECT_WORDS = {"Association": "association", "DeviceName": "device name",
                "Register Import": "imported power", "Register Export": "exported power",
                "ScriptTable": "script table", "Schedule First": "schedule 1",
                "Schedule Second": "schedule 2", "Schedule Third": "schedule 3",
                "Schedule Fourth": "schedule 4", "DisconnectControl": "disconnect control",
                "Limiter Import": "import limiter", "Limiter Export": "export limiter"}
# The class and the words of each logical name.
OBJECTS = {bytes(map(int, name.split())): (CLASS_IDS[kind], OBJECT_WORDS[instance.strip("()")])
           for instance, kind, name in re.findall(
               r"(?m)^    object (\w+|\(\w+ \w+\)) (\w+) \d+ \(obis ([\d ]+)\)", TABLE)}
MEMBERS = {what: {(CLASS_IDS[kind], int(number)): name for kind, number, name in re.findall(
    rf"(?m)^    {what} (\w+) (\d+) .*-- (\w+)", TABLE)} for what in ("attribute", "method")}

CONFORMANCE = """reserved-zero general-protection general-block-transfer read write
    unconfirmed-write delta-value-encoding reserved-seven attribute0-supported-with-set
    priority-mgmt-supported attribute0-supported-with-get block-transfer-with-get-or-read
    block-transfer-with-set-or-write block-transfer-with-action multiple-references
    information-report data-notification access parameterized-access get set selective-access
    event-notification action""".split()

CLIENTS = {1: " (management client)", 16: " (public client)"}
SERVERS = {1: " (management logical device)"}

# ---- parts


def bytes_of(parts):
    return bytes.fromhex("".join(part[0] for part in parts))


def lines_of_parts(parts):
    return [line for part in parts for line in part[1:]]


def indent(parts):
    """Parts whose lines are one level deeper."""
    return [(part[0], *("  " + line for line in part[1:])) for part in parts]


def count_of(count, thing):
    return f"{count} {thing}{'' if count == 1 else 's'}"


def header(source, destination, size, is_request):
    """The header of a wrapper frame."""
    here, there = (CLIENTS, SERVERS) if is_request else (SERVERS, CLIENTS)
    return (f"0001{source:04X}{destination:04X}{size:04X}",
            f"Wrapper: port {source} to port {destination}, {count_of(size, 'byte')}",
            "  Version: 1", f"  Source port: {source}{here.get(source, '')}",
            f"  Destination port: {destination}{there.get(destination, '')}", f"  Length: {size}")


def frame_of(parts, client=1, is_request=True):
    """A frame of these parts, from or to a client's port."""
    ports = (client, 1) if is_request else (1, client)
    return [header(*ports, len(bytes_of(parts)), is_request), *parts]


def service(tag, name, form, form_name):
    """The tag and the form of a service, and an Invoke-Id-And-Priority."""
    return [(f"{tag:02X}", f"APDU: {name} (0x{tag:02x})"),
            (f"{form:02X}", f"Form: {form} ({form_name})"),
            ("C1", "Invoke-Id-And-Priority: 0xc1", "  .... 0001 = Invoke-Id: 1",
             "  .1.. .... = Confirmed: yes", "  1... .... = High priority: yes")]


def reference(what, kind, name, number):
    """A class, a logical name, and the number of an attribute or method."""
    names, known = bytes.fromhex(name), MEMBERS[what].get((kind, number))
    label = ".".join(map(str, names)) + (f" ({OBJECTS[names][1]})" if names in OBJECTS else "")
    class_name = CLASS_NAMES.get(kind, "Unknown")
    return [(f"{kind:04X}", f"Class: {class_name} ({kind})"), (name, f"Logical name: {label}"),
            (f"{number:02X}",
             f"{what.capitalize()}: {number}" + (f" ({known})" if known else ""))]


def attribute(kind, name, number, selection=None):
    """An attribute without selective access, or with this selector and the parts of a Data."""
    if selection is None:
        return [*reference("attribute", kind, name, number), ("00", "Selective access: no")]
    selector, data = selection
    return [*reference("attribute", kind, name, number), ("01", "Selective access: yes"),
            *indent([(f"{selector:02X}", f"Selector: {selector}"), *data])]


def method(kind, name, number):
    return reference("method", kind, name, number)


def list_of(*items):
    """A count, followed by the parts of that number of items."""
    return [(f"{len(items):02X}", f"Items: {len(items)}"),
            *indent([part for item in items for part in item])]


def block(is_last, number, raw):
    """A DataBlock-SA with these bytes."""
    return [(f"{is_last:02X}", f"Last block: {'yes' if is_last else 'no'}"),
            (f"{number:08X}", f"Block number: {number}"), raw_data(raw)]


def raw_data(raw):
    return (f"{length_text(len(raw) // 2)}{raw}", f"Raw data: {bytes_label(bytes.fromhex(raw))}")


def length_text(size):
    return f"{size:02X}" if size < 0x80 else f"81{size:02X}"


def joined_blocks(number, parts):
    """The joined bytes of a transfer of this number of blocks, as lines without bytes."""
    lines = lines_of_parts(indent(parts))
    return [("", f"Joined blocks: {number}, {count_of(len(bytes_of(parts)), 'byte')}", *lines)]


def access_result(number):
    return (f"{number:02X}", f"Data-Access-Result: {RESULTS[number]} ({number})")


def action_result(number):
    return (f"{number:02X}", f"Action-Result: {RESULTS[number]} ({number})")


def get_result(result=None, data=()):
    """Get-Data-Result: a result, or the parts of a Data."""
    if result is None:
        return [("00", "Choice: 0 (data)"), *indent(data)]
    return [("01", "Choice: 1 (data-access-result)"), *indent([access_result(result)])]


def conformance(bits):
    """The conformance block, with a line for each bit from the highest."""
    lines = []
    for index, name in enumerate(CONFORMANCE):
        value = bits >> (23 - index) & 1
        digits = "." * index + str(value) + "." * (23 - index)
        groups = " ".join(digits[at:at + 4] for at in range(0, 24, 4))
        lines.append(f"  {groups} = {name}: {'yes' if value else 'no'}")
    return (f"5F1F0400{bits:06X}", f"Conformance: 0x{bits:06x}", *lines)


def size_part(size):
    return (f"{size:04X}", f"Maximum PDU size: {size}")


# ---- Data, read from bytes


class Reader:
    """Bytes, read from the front."""

    def __init__(self, text):
        self.text, self.at = text, 0

    def take(self, count):
        assert self.at + count <= len(self.text), self.text.hex()
        self.at += count
        return self.text[self.at - count:self.at]

    def number(self, size, is_signed=False):
        return int.from_bytes(self.take(size), "big", signed=is_signed)

    def length(self):
        first = self.number(1)
        return first if first < 0x80 else self.number(first - 0x80)


NUMBERS = {"double-long": (4, True), "double-long-unsigned": (4, False), "integer": (1, True),
           "long": (2, True), "unsigned": (1, False), "long-unsigned": (2, False),
           "long64": (8, True), "long64-unsigned": (8, False), "enum": (1, False)}
SHOWN_BYTES = 36  # Wireshark shows at most this number of bytes of a field


def bytes_label(text):
    if len(text) > SHOWN_BYTES:
        return text[:SHOWN_BYTES].hex() + "…"
    return text.hex() or "<MISSING>"


def octets_label(text):
    if text in OBJECTS:
        return f"{text.hex()} ({'.'.join(map(str, text))}, {OBJECTS[text][1]})"
    is_text = text and all(0x20 <= byte < 0x7F for byte in text)
    return bytes_label(text) + (f' ("{text.decode()}")' if is_text else "")


def list_lines(reader, name):
    count = reader.length()
    yield f"{name}: {count_of(count, 'item')}"
    for _ in range(count):
        yield from ("  " + line for line in data_lines(reader))


def clock_label(name, text):
    """A date-time, a date or a time without rules such as the last day."""
    part = ["*" if it == 0xFF else f"{it:02d}" for it in text]
    day = {255: "*"} | dict(enumerate("Mon Tue Wed Thu Fri Sat Sun".split(), 1))
    if name == "time":
        return "{}:{}:{}.{}".format(*part)
    year = "*" if text[:2] == b"\xff\xff" else f"{int.from_bytes(text[:2], 'big'):04d}"
    date = f"{year}-{part[2]}-{part[3]} {day[text[4]]}"
    if name == "date":
        return date
    deviation = int.from_bytes(text[9:11], "big", signed=True)
    shown = "*" if deviation == -0x8000 else deviation
    return f"{date} {clock_label('time', text[5:9])}, deviation {shown}, status {text[11]:02X}"


def data_lines(reader):
    """The lines of the Data at the front of bytes."""
    name = TYPES[reader.number(1)]
    if name in ("array", "structure"):
        yield from list_lines(reader, name)
    elif name in NUMBERS:
        yield f"{name}: {reader.number(*NUMBERS[name])}"
    elif name == "boolean":
        yield f"boolean: {'true' if reader.number(1) else 'false'}"
    elif name == "bit-string":
        bits = reader.length()
        digits = "".join(f"{byte:08b}" for byte in reader.take((bits + 7) // 8))
        yield f"bit-string: {digits[:bits]}"
    elif name == "octet-string":
        yield f"octet-string: {octets_label(reader.take(reader.length()))}"
    elif name in ("visible-string", "utf8-string"):
        yield f"{name}: {reader.take(reader.length()).decode()}"
    elif name in ("date-time", "date", "time"):
        size = {"date-time": 12, "date": 5, "time": 4}[name]
        yield f"{name}: {clock_label(name, reader.take(size))}"
    else:
        yield name


def data(text):
    """The parts of a Data in hexadecimal."""
    reader = Reader(bytes.fromhex(text))
    lines = list(data_lines(reader))
    assert reader.at == len(reader.text), text
    return [(text, *lines)]


# ---- answers, read from bytes

SERVICES = {0xC4: ("GET-Response", {1: "normal", 2: "with-datablock", 3: "with-list"}),
            0xC5: ("SET-Response", {1: "normal", 2: "datablock", 3: "last-datablock"}),
            0xC7: ("ACTION-Response", {1: "normal", 4: "next-pblock"})}


def result_lines(reader):
    """The lines of a Get-Data-Result."""
    if reader.number(1) == 0:
        lines = ["Choice: 0 (data)", *("  " + line for line in data_lines(reader))]
    else:
        lines = lines_of_parts(get_result(reader.number(1)))
    return lines


def results_lines(reader):
    count = reader.length()
    yield f"Items: {count}"
    for _ in range(count):
        yield from ("  " + line for line in result_lines(reader))


class Answers:
    """Reads a meter's answers to GET, SET and ACTION, in the order in which they were sent."""

    def __init__(self):
        self.raw = b""

    def lines(self, payload, joined_lines=data_lines):
        """The lines of an answer. `joined_lines` reads the bytes that blocks contain."""
        reader = Reader(payload)
        tag, form, invoke_id = (reader.number(1) for _ in range(3))
        name, forms = SERVICES[tag]
        assert invoke_id == 0xC1, payload.hex()
        yield from lines_of_parts(service(tag, name, form, forms[form]))
        yield from self.rest(reader, (tag, form), joined_lines)
        assert reader.at == len(payload), payload.hex()

    def rest(self, reader, form, joined_lines):
        if form == (0xC4, 1):
            yield from result_lines(reader)
        elif form == (0xC4, 2):
            yield from self.block_lines(reader, joined_lines)
        elif form == (0xC4, 3):
            yield from results_lines(reader)
        if form in ((0xC5, 1), (0xC5, 3)):
            yield access_result(reader.number(1))[1]
        if form in ((0xC5, 2), (0xC5, 3), (0xC7, 4)):
            yield f"Block number: {reader.number(4)}"
        if form == (0xC7, 1):
            yield action_result(reader.number(1))[1]
            assert reader.number(1) == 0
            yield "Return parameter: no"

    def block_lines(self, reader, joined_lines):
        is_last, number = reader.number(1), reader.number(4)
        yield f"Last block: {'yes' if is_last else 'no'}"
        yield f"Block number: {number}"
        if reader.number(1):
            yield from lines_of_parts(get_result(reader.number(1)))
            return
        raw = reader.take(reader.length())
        self.raw = raw if number == 1 else self.raw + raw
        yield "Choice: 0 (raw-data)"
        yield f"  Raw data: {bytes_label(raw)}"
        if is_last:
            yield f"  Joined blocks: {number}, {count_of(len(self.raw), 'byte')}"
            yield from ("    " + line for line in joined_lines(Reader(self.raw)))
