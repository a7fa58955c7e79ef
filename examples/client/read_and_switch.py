#!/usr/bin/env python3
"""Reads the state of a meter's switch, disconnects or reconnects the supply, and reads the state
again. docs/CLIENTS.md explains every byte.

usage: METER_PASSWORD=.. read_and_switch.py HOST:PORT disconnect|reconnect

The status is 1 if the meter refuses or does not answer, 2 if the command line is wrong.
"""
import os
import socket
import sys

SECONDS = 10  # the time limit of the connection and of each answer
METHODS = {"disconnect": 1, "reconnect": 2}
STATES = {0: "Disconnected", 1: "Connected", 2: "Ready for reconnection"}
SWITCH = bytes.fromhex("0046 000060030AFF")  # class 70, 0.0.96.3.10.255
AARE = bytes.fromhex("A109060760857405080101 A2030201")  # before the result of the association


class Refused(Exception):
    """The meter refused a request, or sent an answer of another form."""


def receive(meter, count):
    text = b""
    while len(text) < count:
        piece = meter.recv(count - len(text))
        if not piece:
            raise Refused("the meter closed the connection")
        text += piece
    return text


def ask(meter, payload):
    """Sends a request in a frame from port 1 to port 1, and returns the payload of the answer."""
    meter.sendall(bytes.fromhex("0001 0001 0001") + len(payload).to_bytes(2, "big") + payload)
    head = receive(meter, 8)
    if head[:6] != bytes.fromhex("0001 0001 0001"):
        raise Refused(f"the answer begins with {head.hex(' ')}")
    return receive(meter, int.from_bytes(head[6:], "big"))


def associate(meter, password):
    """Opens an association with a password, for GET (bit 19) and ACTION (bit 23)."""
    secret = bytes([0x80, len(password)]) + password
    fields = bytes.fromhex("A109060760857405080101 8A020780 8B0760857405080201")
    fields += bytes([0xAC, len(secret)]) + secret
    fields += bytes.fromhex("BE10040E 01000000 06 5F1F0400 000011 0400")
    answer = ask(meter, bytes([0x60, len(fields)]) + fields)
    if answer[:1] != b"\x61" or answer[2:17] != AARE or len(answer) < 25:
        raise Refused(f"the association: {answer.hex(' ')}")
    if answer[17] != 0:
        raise Refused(f"the association: diagnostic {answer[24]} (13 is a wrong password)")


def state(meter):
    """Reads attribute 3, control_state: an enum."""
    answer = ask(meter, bytes.fromhex("C001C1") + SWITCH + bytes.fromhex("03 00"))
    if answer[:5] != bytes.fromhex("C401C1 00 16") or len(answer) != 6:
        raise Refused(f"GET control_state: {answer.hex(' ')}")
    return STATES.get(answer[5], answer[5])


def switch(meter, verb):
    """Executes a method with the parameter integer 0."""
    try:
        answer = ask(meter, bytes.fromhex("C301C1") + SWITCH + bytes([METHODS[verb], 1, 0x0F, 0]))
    except (OSError, Refused) as error:
        raise Refused(f"{verb}: {error}; the meter may have carried it out") from error
    if answer[:3] != bytes.fromhex("C701C1") or len(answer) != 5:
        raise Refused(f"{verb}: {answer.hex(' ')}")
    if answer[3] != 0:
        raise Refused(f"{verb}: result {answer[3]} (2 is temporary-failure: look at control_mode)")


def run(host, port, verb, password):
    with socket.create_connection((host, port), timeout=SECONDS) as meter:
        associate(meter, password)
        print("before:", state(meter))
        switch(meter, verb)
        print("after:", state(meter))
        ask(meter, bytes.fromhex("62 03 80 01 00"))  # the release


def main(words):
    password = os.environ.get("METER_PASSWORD", "").encode()
    host, _, port = words[0].rpartition(":") if words else ("", "", "")
    if len(words) != 2 or words[1] not in METHODS or not host or not port.isdecimal():
        print(__doc__.strip(), file=sys.stderr)
        return 2
    if not 1 <= len(password) <= 32:
        print("METER_PASSWORD: must be 1 to 32 bytes", file=sys.stderr)
        return 2
    try:
        run(host.strip("[]"), int(port), words[1], password)
    except (OSError, OverflowError, Refused) as error:
        print(f"{words[0]}: {error}", file=sys.stderr)
        return 1
    return 0


if __name__ == "__main__":
    sys.exit(main(sys.argv[1:]))
