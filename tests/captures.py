"""Captures of sessions for tests/wireshark.py: IP and TCP headers around the bytes that a client
and a meter sent, in the format of pcap, and the trees that tshark shows of them."""

import os
import re
import struct
import subprocess
import tempfile
import xml.etree.ElementTree as Tree
from pathlib import Path

TOP = Path(__file__).resolve().parent.parent
DISSECTOR = TOP / "share" / "wireshark" / "dlms_cosem.lua"
PORT = 4059
FIRST_CLIENT_PORT = 20_000
CLIENT, METER = bytes([10, 0, 0, 1]), bytes([10, 0, 0, 2])
RAW_IP = 101  # the link type of packets that begin with their IP header
PATIENCE = 300  # the time limit of a run of tshark, in seconds
# What tshark prints if a dissector in Lua fails.
LUA_ERROR = re.compile(r"Lua Error|lua:|dlms_cosem\.lua:\d+|Dissector bug|stack traceback")


class Capture:
    """Packets between clients and a meter. `limit` is the number of bytes of a packet that are
    captured."""

    def __init__(self, port=PORT, limit=65_535):
        self.port, self.limit = port, limit
        self.packets = []
        self.connections = 0

    def connection(self):
        """Returns a new connection of the capture, with a client port of its own."""
        self.connections += 1
        return Connection(self, FIRST_CLIENT_PORT + self.connections)

    def add(self, packet):
        """Adds a packet; returns its number, counted from 1."""
        self.packets.append(packet)
        return len(self.packets)

    def write(self, path):
        """Writes the packets as a capture file (pcap)."""
        records = [struct.pack(">IHHIIII", 0xA1B2C3D4, 2, 4, 0, 0, 65_535, RAW_IP)]
        for number, packet in enumerate(self.packets):
            kept = packet[:self.limit]
            records.append(struct.pack(">IIII", number, 0, len(kept), len(packet)) + kept)
        path.write_bytes(b"".join(records))


class Connection:
    """A TCP connection of a client."""

    def __init__(self, capture, client_port):
        self.capture, self.client_port = capture, client_port
        self.sent = {True: 1, False: 1}  # the next sequence numbers of client and meter

    def send(self, text, is_client=True):
        """Adds a packet with these bytes; returns its number."""
        ports = (self.client_port, self.capture.port) if is_client else (self.capture.port,
                                                                         self.client_port)
        numbers = self.sent[is_client], self.sent[not is_client]
        tcp = struct.pack(">HHIIBBHHH", *ports, *numbers, 0x50, 0x18, 65_535, 0, 0) + text
        hosts = CLIENT + METER if is_client else METER + CLIENT
        ip = struct.pack(">BBHHHBBH", 0x45, 0, 20 + len(tcp), 0, 0x4000, 64, 6, 0) + hosts
        self.sent[is_client] += len(text)
        return self.capture.add(ip + tcp)


def tshark(capture, *options):
    """What tshark prints of a capture with the dissector; fails if the dissector does."""
    with tempfile.TemporaryDirectory(prefix="wireshark-") as room:
        path = Path(room) / "sessions.pcap"
        capture.write(path)
        words = ["tshark", "-n", "-X", f"lua_script:{DISSECTOR}", "-r", path, *options]
        # (no preferences and plugins of the user)
        own = {"HOME": room, "XDG_CONFIG_HOME": room, "LC_ALL": "C.UTF-8"}
        ran = subprocess.run(words, capture_output=True, timeout=PATIENCE,
                             env={**os.environ, **own})
    printed = ran.stdout.decode(errors="replace")
    error = LUA_ERROR.search(printed + ran.stderr.decode(errors="replace"))
    assert ran.returncode == 0 and not error, (ran.returncode, error, ran.stderr[-500:])
    return printed


def lines_of(node, depth=0):
    """The visible lines of a tree, each indented by its depth."""
    for field in node.findall("field"):
        if field.get("hide") != "yes":
            yield "  " * depth + (field.get("showname") or field.get("show"))
            if field.get("name") != "_ws.expert":
                yield from lines_of(field, depth + 1)


def frames_of(capture, *options):
    """The frames that each packet completes, by its number: each frame as its visible lines."""
    packets = Tree.fromstring(tshark(capture, "-T", "pdml", "-J", "dlms_cosem", *options))
    return {number: [list(lines_of(it)) for it in packet.findall("proto[@name='dlms_cosem']")]
            for number, packet in enumerate(packets.findall("packet"), 1)}


def summaries_of(capture, *options):
    """The column Info of each packet."""
    columns = ["-o", 'gui.column.format:"Protocol","%p","Info","%i"']
    return tshark(capture, *columns, *options).splitlines()
