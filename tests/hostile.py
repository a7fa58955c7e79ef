#!/usr/bin/env python3
"""Tests `meter_server serve` with hostile clients and `head_end run` with meters that never answer:
silence, single bytes, wrong passwords, more clients than sessions, clients that stop within a
frame, never read their responses or reset the connection, and eight clients at full speed with a
busy console. Each trace must play to the replies that the clients saw; the threads, descriptors and
memory of the server are checked. Every wait has a time limit.

usage: tests/hostile.py [--long]     (--long: ten times as many rounds)"""

import argparse
import os
import random
import re
import subprocess
import sys
import threading
import time

sys.dont_write_bytecode = True  # importing the modules of tests/ leaves no files

import serving
from campaigns import HEAD_END, run_head_end
from scripted_meters import ScriptedMeter, drips, is_silent, is_silent_later
from serving import (ACTIVE, DEVICE, DISCONNECT, LIMITER, MODE, NORMAL, OBJECTS, PATIENCE, PLAYER,
                     PUBLIC, RECONNECT, REFUSED, REGISTER, SERVER, SESSIONS, STATE, Client, Server,
                     Vanished, check, connect_again, is_part_of, play_trace, test, wait_until)

ROUNDS = 30
HUNDRED = 100
TURNED_AWAY = b"turned away"
is_long = False


def count_of(folder):
    """The number of entries of a folder."""
    return len(os.listdir(folder))


class Watch:
    """The threads, descriptors and memory of a process."""

    def __init__(self, process):
        self.place = f"/proc/{process.pid}"
        self.first = self.now()

    def now(self):
        """The numbers of threads and descriptors, and the resident KiB."""
        with open(f"{self.place}/status") as status:
            resident = int(re.search(r"VmRSS:\s+(\d+) kB", status.read())[1])
        return count_of(f"{self.place}/task"), count_of(f"{self.place}/fd"), resident

    def has_no_more(self):
        """Whether, within the time limit, there are no more threads and descriptors than at the
        start."""
        return wait_until(lambda: all(now <= first
                                      for now, first in zip(self.now()[:2], self.first[:2])))


def serve_one_more(server):
    """Serves one more client: when it connects, the server joins the sessions that have ended."""
    client = connect_again(server)
    client.get(STATE)
    client.close()
    return client.seen


def silent_clients_are_closed(name):
    server = Server("--inactivity", "1", "--stop-with-input")
    silent = [Client(server.port) for _ in range(SESSIONS)]
    check(f"{name}: eight are connected", server.wait_for(b"connected", SESSIONS))
    check(f"{name}: a ninth is turned away", Client(server.port).is_closed())
    begun = time.monotonic()
    check(f"{name}: all are closed", all(client.is_closed() for client in silent) and time.monotonic() - begun < 10)
    seen = serve_one_more(server)
    status, trace, errors = server.end()
    check(f"{name}: another is served then", status == 0 and play_trace(trace) == seen, status,
          errors)
    check(f"{name}: reported", errors.count("a read failed or timed out") == SESSIONS, errors)


def a_slow_client_holds_one_place(name):
    """A client sends each byte just within the time limit; the limit of the session ends it."""
    server = Server("--inactivity", "1", "--session", "4", "--stop-with-input")
    slow = Client(server.port, PUBLIC)
    begun, sent = time.monotonic(), 0
    others = [server.client() for _ in range(SESSIONS - 1)]
    check(f"{name}: a ninth is turned away", Client(server.port).is_closed())
    for client in others:
        client.close()
    try:
        for byte in bytes.fromhex("000100100001001F601DA109060760857405080101"):
            slow.send_bytes(bytes([byte]))
            sent += 1
            time.sleep(0.6)
    except OSError:
        pass
    told = server.wait_for(b"a read failed or timed out")
    check(f"{name}: closed when its session is over", told and slow.is_closed() and 2 <= sent < 12, sent, server.errors)
    seen = serve_one_more(server)
    status, trace, errors = server.end()
    check(f"{name}: end", status == 0 and play_trace(trace) == seen, status, errors)
    print(f"{name}: {sent} bytes in {time.monotonic() - begun:.1f} s")


def a_meter_that_never_answers_costs_its_limit(name):
    for script in (is_silent, is_silent_later, drips):
        meter = ScriptedMeter(script)
        begun = time.monotonic()
        made = run_head_end(f"m1 127.0.0.1:{meter.port} disconnect\n", "--timeout", "2")
        took = time.monotonic() - begun
        check(f"{name}: {script.__name__}", made == (0, "m1 unknown\n", "") and 1.8 <= took < 15, made, took)
        meter.stop()


def wrong_clients_reach_no_meter(name):
    """Wrong passwords, unknown ports, calls without an association and a ninth client leave no
    event."""
    server = Server("--stop-with-input")
    tried = 0
    for password in ("", "1", "1234567", "12345679", "123456789", "87654321", "x" * 32):
        client = Client(server.port)
        check(f"{name}: password {password}", client.associate(password) == REFUSED + "0D" and client.ask("C001C10046000060030AFF0300") == "D80101")
        client.ask("C301C10046000060030AFF0100")
        client.close()
        tried += 1
    for port in (0, 2, 15, 17, 65_535):
        client = Client(server.port, port)
        check(f"{name}: port {port}", client.associate() == REFUSED + "01" and client.ask("C301C10046000060030AFF0100") == "D80101")
        client.close()
        tried += 1
    places = [connect_again(server) for _ in range(SESSIONS)]
    ninths = [Client(server.port) for _ in range(HUNDRED)]
    check(f"{name}: a ninth and a hundredth are closed without a byte", all(client.is_closed() for client in ninths))
    check(f"{name}: reported", server.wait_for(TURNED_AWAY, HUNDRED), server.errors.count(TURNED_AWAY))
    for client in (*places, *ninths):
        client.close()
    status, trace, errors = server.end()
    check(f"{name}: no event", status == 0 and play_trace(trace) == [], status, trace, errors)
    print(f"{name}: {tried + HUNDRED} clients, 0 events")


def ask_at_random(client, chance, count):
    """Requests of all kinds, some with blocks and lists; a block write that was not finished is
    refused later."""
    for _ in range(count):
        what = chance.randrange(8)
        if what == 0:
            client.set(MODE, f"160{chance.randrange(1, 7)}")
        elif what == 1:
            client.execute(chance.choice((DISCONNECT, RECONNECT)), chance.choice(("", "0F00")))
        elif what == 2:
            value = f"{chance.randrange(10_000):08X}"
            client.set_in_blocks(NORMAL, "06" + value[:2], value[2:])
        elif what == 3:
            client.get_list(STATE, DEVICE, ACTIVE)
        elif what == 4:
            client.get(OBJECTS)
        else:
            client.get(chance.choice((STATE, MODE, REGISTER, ACTIVE, (*LIMITER, 7))))


def run_sessions(server, number, rounds, kept):
    """One of eight clients: opens and closes sessions one after the other."""
    chance = random.Random(number)
    for _ in range(rounds):
        try:
            client = connect_again(server)
            kept.append(client)
            ask_at_random(client, chance, 12)
            if chance.randrange(2):
                client.release()
            client.close()
        except (Vanished, OSError):
            continue


def run_console(server, rounds):
    """Presses, moments and blocks of 256 samples."""
    chance = random.Random(99)
    for turn in range(rounds):
        low = [str(chance.randrange(10_000)) for _ in range(256)]
        server.say("samples " + " ".join(low), "button", f"moment {100 + turn}", "pairs " + " ".join(low))
        time.sleep(0.001)


def start_threads(works):
    """Starts a thread for each work; returns the threads."""
    threads = [threading.Thread(target=work, args=words, daemon=True) for work, *words in works]
    for thread in threads:
        thread.start()
    return threads


def in_threads(works):
    """Runs all functions in parallel; returns whether all end."""
    threads = start_threads(works)
    for thread in threads:
        thread.join(PATIENCE * 10)
    return not any(thread.is_alive() for thread in threads)


def eight_clients_at_full_speed(name):
    rounds = 10 if not is_long else 100
    begun, events, sessions = time.monotonic(), 0, 0
    for _ in range(rounds):  # (a trace has at most 1,024 events)
        server = Server("--depth", "1024", "--stop-with-input")
        serve_one_more(server)
        watch, kept = Watch(server.process), []
        all_ended = in_threads([(run_sessions, server, number, 4, kept) for number in range(SESSIONS)] + [(run_console, server, 60)])
        check(f"{name}: all end", all_ended)
        serve_one_more(server)
        check(f"{name}: no thread or descriptor is leaked", watch.has_no_more(), watch.first, watch.now())
        status, trace, errors = server.end()
        check(f"{name}: end", status == 0 and "fault" not in errors, status, errors[-500:])
        history = play_trace(trace)
        found = sum(is_part_of(client.seen, history) for client in kept)
        check(f"{name}: the trace has what the clients saw", found == len(kept), found, len(kept))
        blocks = sum(event.startswith(("samples", "pairs")) for event, _ in history)
        check(f"{name}: the trace has the lines of the console", blocks == 120 and sum(event == "button" for event, _ in history) == 60, blocks)
        events, sessions = events + len(history), sessions + len(kept)
    print(f"{name}: {sessions} sessions, {events} events, {time.monotonic() - begun:.1f} s")


def a_soak_keeps_its_memory(name):
    """Checks that the memory of a server with 64 events does not grow once the events and all
    sessions have been used."""
    rounds = 12 if not is_long else 120
    begun, sessions, sizes = time.monotonic(), 0, []
    server = Server("--depth", "64", "--stop-with-input")
    watch = Watch(server.process)
    for _ in range(rounds):
        kept = []
        in_threads([(run_sessions, server, number, 4, kept) for number in range(SESSIONS)] + [(run_console, server, 60)])
        sessions += len(kept)
        sizes.append(watch.now()[2])
    half = rounds // 2
    check(f"{name}: memory does not grow", max(sizes[half:]) <= max(sizes[:half]) + 1024, sizes)
    serve_one_more(server)
    status, trace, errors = server.end()
    check(f"{name}: end", status == 0 and "fault" not in errors and len(play_trace(trace)) == 64, status, errors[-500:])
    print(f"{name}: {sessions} sessions, resident {sizes[0]} KiB after the first round, {max(sizes[:half])} at most in the first half, {max(sizes[half:])} in the second, "
          f"{time.monotonic() - begun:.1f} s")


def stops_within_a_frame(server, chance):
    """A client that stops within a frame."""
    client = connect_again(server)
    client.send_bytes(bytes.fromhex("000100010001000DC001C1")[:chance.randrange(1, 11)])
    client.close()


def resets(server, chance):
    """A client that resets its connection after a request."""
    client = connect_again(server)
    client.send("C001C10046000060030AFF0300")
    client.socket.setsockopt(serving.socket.SOL_SOCKET, serving.socket.SO_LINGER, b"\1\0\0\0\0\0\0\0")
    client.close()


def never_reads(server, chance):
    """Requests the object list again and again without reading, until the meter closes the
    connection."""
    client = connect_again(server)
    frame = bytes.fromhex("000100010001000DC001C1000F0000280000FF0200")
    try:
        while True:
            client.send_bytes(frame * 100)
    except OSError:
        pass
    client.close()


def babbles(server, chance):
    """A client that sends random bytes."""
    client = Client(server.port)
    try:
        client.send_bytes(chance.randbytes(chance.randrange(1, 4_000)))
        client.socket.settimeout(2)
        client.socket.recv(4_096)
    except OSError:
        pass
    client.close()


def sends_wrong_blocks(server, chance):
    """A client that sends blocks of transfers that were not begun."""
    client = connect_again(server)
    for payload in ("C002C100000005", "C103C1010000000201AA", "C102C100470000110000FF0400000000000102" + "0600", "C103C1010000000902" + "0000", "C306C10100000007020100"):
        client.ask(payload)
    client.close()


HOSTILE = (stops_within_a_frame, resets, never_reads, babbles, sends_wrong_blocks)


def attack(server, script, count):
    """Lets a hostile client connect this many times."""
    chance = random.Random(script.__name__)
    for _ in range(count):
        try:
            script(server, chance)
        except (AssertionError, Vanished, OSError):  # (turned away or closed)
            time.sleep(0.01)


def hostile_clients_beside_a_good_one(name):
    rounds = ROUNDS if not is_long else 10 * ROUNDS
    server = Server("--depth", "1024", "--inactivity", "2", "--stop-with-input")
    serve_one_more(server)
    watch = Watch(server.process)
    good = server.client()
    begun = time.monotonic()
    works = [(attack, server, script, rounds // ROUNDS if script is never_reads else rounds) for script in HOSTILE]
    sizes, slowest = [], 0.0
    threads = start_threads(works)
    while any(thread.is_alive() for thread in threads) and time.monotonic() - begun < PATIENCE * 10:
        asked = time.monotonic()
        check(f"{name}: the good client is answered", good.get(MODE) == "value 1600")
        slowest = max(slowest, time.monotonic() - asked)
        sizes.append(watch.now()[2])
        time.sleep(0.01)
    for thread in threads:
        thread.join(1)
    check(f"{name}: all end", not any(thread.is_alive() for thread in threads))
    good.close()
    serve_one_more(server)
    check(f"{name}: no thread or descriptor is leaked", watch.has_no_more(), watch.first, watch.now())
    status, trace, errors = server.end()
    check(f"{name}: end", status == 0 and "fault" not in errors, status, errors[-500:])
    check(f"{name}: the trace has what the good client saw last", is_part_of(good.seen[-50:], play_trace(trace)))
    check(f"{name}: a client that does not read is closed", "a write failed or timed out" in errors)
    print(f"{name}: {errors.count('connected')} connections, {len(good.seen)} answers to the good one, the slowest in {slowest:.2f} s, "
          f"resident {watch.first[2]} to {max(sizes)} KiB, {time.monotonic() - begun:.1f} s")


def a_word_that_is_no_text_is_a_wrong_command_line(name):
    for program, words in ((SERVER, ["hex", "--password", b"\xff\xfe"]), (SERVER, [b"\x80"]), (PLAYER, [b"\xff"]), (HEAD_END, ["check", b"\xff"])):
        made = subprocess.run([str(program), *words], stdin=subprocess.DEVNULL, capture_output=True, timeout=PATIENCE)
        check(f"{name}: {words}", (made.returncode, made.stdout, made.stderr) == (2, b"", b"fault: input\n"), made)


def main():
    global is_long
    parser = argparse.ArgumentParser()
    parser.add_argument("--long", action="store_true", help="ten times as many rounds")
    is_long = parser.parse_args().long
    for executable in (SERVER, PLAYER, HEAD_END):
        if not os.access(executable, os.X_OK):
            print(f"{executable} is missing: run bin/test, or `rt run` in its crate")
            print("0 passed, 1 failed")
            return 1
    for function in (silent_clients_are_closed, a_slow_client_holds_one_place, a_meter_that_never_answers_costs_its_limit, wrong_clients_reach_no_meter,
                     eight_clients_at_full_speed, a_soak_keeps_its_memory, hostile_clients_beside_a_good_one, a_word_that_is_no_text_is_a_wrong_command_line):
        test(function)
    print(f"{serving.passed} passed, {serving.failed} failed")
    return 1 if serving.failed else 0


if __name__ == "__main__":
    sys.exit(main())
