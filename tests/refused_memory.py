#!/usr/bin/env python3
"""Makes each allocation in turn fail, in the executables that the gate left, and checks what holds
afterwards. Prints the number of failed allocations of each, and the results.

Every allocation is refused in the six calls whose state after it is promised, which takes less than
a minute: the refusals in `run_tests` (the recorder's `apply`, a port's `call`, `serve_session`,
`serve_all`, `play`) and a campaign of four jobs; and in a test of the sampler. In the programs, and
in a meter that serves two clients, the first, the last and some between are refused; for that meter
also the start of each thread.

usage: tests/refused_memory.py [--long]     (--long: every allocation everywhere)"""

import argparse
import collections
import contextlib
import os
import sys

sys.dont_write_bytecode = True  # importing the modules of tests/ leaves no files

import serving
from programs import tests_of
from command_lines import AARE, AARQ, ENDED_FILE, GET_STATE, GOT_STATE, TRACE
from refusing import Refusing, call_numbers
from scripted_meters import AARQ as CLIENT_AARQ
from scripted_meters import REQUESTS, ScriptedMeter
from serving import AARE as OPENING
from serving import (DISCONNECT, MODE, PASSWORD, PLAYER, REFUSED, SERVER, STATE, Client,
                     Server, Vanished, check, is_part_of, play_trace, test, wait_until)
from campaigns import HEAD_END

RUNS = tests_of("run_tests")
# The test of the sampler, which checks the scan of each block.
SAMPLER = "sampling::blocks_are_scanned_with_the_thresholds_read_last"

MEMORY = b"fault: memory\n"
# What describes the fault, once the command line is read.
DESCRIBED = {SERVER: b"out of memory\n" + MEMORY, PLAYER: b"out of memory\n" + MEMORY, HEAD_END: b"standard input: out of memory\n" + MEMORY}
GET_OBJECTS = b"000100100001000DC001C1000F0000280000FF0200"
is_long = False
refusing = None


def print_counts(name, found, word="allocations refused"):
    """Prints the number of refused or failed calls, and the number of each result."""
    print(f"{name}: {sum(found.values())} {word}: " + ", ".join(f"{count} {what}" for what, count in sorted(found.items())))


def each_refusal(run, count, is_each=False):
    """What `run` returns for each allocation that is refused, counted. It receives the number of
    the allocation. Unless `is_each` or `--long` is set, some are left out."""
    return collections.Counter(run(number) for number in call_numbers(count, is_long or is_each))


def verdict(ran):
    """The result of a test of calls that are refused memory."""
    text = ran.output + ran.errors
    if ran.status == 0:
        return "went unnoticed"
    if b"RefusedAndStood" in text:
        return "in the call, and nothing changed"
    return "outside the call" if b"AllocError" in text or b"OutOfMemory" in text else "WRONG"


def calls_are_refused_memory(name):
    listed = refusing.run([RUNS, "--list"]).output.decode().splitlines()
    names = [line.removesuffix(": test") for line in listed if line.startswith("refusals::") and line.endswith(": test")]
    check(f"{name}: five calls", len(names) == 5, names)
    for one in names:
        ample = refusing.run([RUNS, one])
        found = each_refusal(lambda number: verdict(refusing.run([RUNS, one], refuse_memory=number)), ample.allocations, is_each=True)
        print_counts(one, found)
        check(f"{name}: {one}: ample memory", ample.status == 0, ample)
        check(f"{name}: {one}", found["in the call, and nothing changed"] > 0 and not found["WRONG"], found)


def a_read_of_thresholds_is_refused_memory(name):
    ample = refusing.run([RUNS, SAMPLER])
    found = each_refusal(lambda number: verdict(refusing.run([RUNS, SAMPLER], refuse_memory=number)), ample.allocations, is_each=True)
    print_counts("a sampler that reads the thresholds", found)
    check(f"{name}: ample memory", ample.status == 0, ample)
    check(name, found["in the call, and nothing changed"] > 0 and not found["WRONG"], found)


# A program, its arguments, its input, and whether it may write its first lines before it runs out
# of memory.
PROGRAMS = [
    ("meter_server apdu", SERVER, ["apdu"], b"C001C10046000060030AFF0300\nC101C10046000060030AFF04001602\nC001C1000F0000280000FF0200\n", False),
    ("meter_server hex", SERVER, ["hex", "--password", PASSWORD], AARQ + GET_STATE + GET_OBJECTS, True),
    ("trace_player", PLAYER, [], TRACE, False),
    ("trace_player --format csv", PLAYER, ["--format", "csv", "--events"], TRACE, False),
    ("trace_player --format json", PLAYER, ["--format", "json", "--events"], TRACE, False),
    ("head_end check", HEAD_END, ["check"], b"m1 127.0.0.1:4059 disconnect\nm2 127.0.0.1:4060 state\n", False),
]


def after_refusal(program, ran, ample, writes_first):
    """The result of a refused allocation: the output of a run with ample memory, or the fault after
    the first lines or none."""
    if (ran.status, ran.output, ran.errors) == (0, ample.output, b""):
        return "went unnoticed"
    if ran.status != 4 or ran.errors not in (MEMORY, DESCRIBED[program]):
        return f"WRONG: status {ran.status}, {ran.errors}"
    if not ran.output:
        return "nothing written"
    is_first = writes_first and ran.output.endswith(b"\n") and ample.output.startswith(ran.output)
    return "first lines written" if is_first else "WRONG: other lines"


def programs_are_refused_memory(name):
    for title, program, words, text, writes_first in PROGRAMS:
        ample = refusing.run([program, *words], text)
        found = each_refusal(lambda number: after_refusal(program, refusing.run([program, *words], text, refuse_memory=number), ample, writes_first), ample.allocations)
        print_counts(title, found)
        check(f"{name}: {title}: ample memory", ample.status == 0 and ample.output, ample)
        check(f"{name}: {title}", found["nothing written"] > 0 and not any("WRONG" in what for what in found), found)
    check(f"{name}: the session is the stored one", refusing.run([SERVER, "hex", "--password", PASSWORD], AARQ + GET_STATE).output == AARE + GOT_STATE)


def file_result(words, number):
    """The result of a program that reads a file of a password, with a refused allocation."""
    ran = refusing.run(words, refuse_memory=number)
    if (ran.status, ran.output, ran.errors) == (0, b"", b""):
        return "went unnoticed"
    if ran.status != 4 or ran.output:
        return f"WRONG: status {ran.status}, {ran.output}"
    line = ENDED_FILE.encode() + b": out of memory\n"
    return {MEMORY: "outside the file", line + MEMORY: "in the file"}.get(ran.errors, f"WRONG: {ran.errors}")


def a_file_of_a_password_is_refused_memory(name):
    words = [HEAD_END, "run", "--password-file", ENDED_FILE]
    ample = refusing.run(words)
    found = each_refusal(lambda number: file_result(words, number), ample.allocations, is_each=True)
    print_counts("a campaign with a file of its password", found)
    check(f"{name}: ample memory", (ample.status, ample.output, ample.errors) == (0, b"", b""), ample)
    check(name, found["in the file"] and found["outside the file"] and not any("WRONG" in what for what in found), found)


def script_of(opening, action=None):
    """A script that answers the AARQ and, if the association is open, the request. Without an
    answer to that it closes the connection."""
    def script(talk):
        if opening != ACCEPTED:
            talk.take()
            talk.send(opening)
            return False
        talk.open(opening)
        if action:
            talk.send(action)
        return not action
    return script


# The AARE of an association with get, set and action.
ACCEPTED = OPENING + "001E1904000007"

# The meters of a campaign of four disconnect jobs, and the rows that they bring: success (0),
# authentication-failure (13), a connection that is closed, and temporary-failure (2).
METERS = [
    (script_of(ACCEPTED, "C701C10000"), "done 0"),
    (script_of(REFUSED + "0D"), "rejected 13"),
    (script_of(ACCEPTED), "unknown"),
    (script_of(ACCEPTED, "C701C10200"), "refused 2"),
]


def campaign_result(jobs, number):
    """The result of a campaign with a refused allocation."""
    ran = refusing.run([HEAD_END, "run", "--password", PASSWORD, "--workers", "2", "--timeout", "5"], jobs, refuse_memory=number)
    if ran.status == 4 and ran.errors in (MEMORY, DESCRIBED[HEAD_END]) and not ran.output:
        return "WRONG: a connection" if ran.connections else "whole: no connection"
    rows = [line.split(" ", 1)[1] for line in ran.output.decode().splitlines()]
    if ran.status != 0 or ran.errors or len(rows) != len(METERS) or any(row not in (wanted, "memory") for row, (_, wanted) in zip(rows, METERS)):
        return f"WRONG: {ran}"
    return "one job's row" if "memory" in rows else "went unnoticed"


def a_campaign_is_refused_memory(name):
    meters = [ScriptedMeter(script) for script, _ in METERS]
    jobs = "".join(f"m{number} 127.0.0.1:{meter.port} disconnect\n" for number, meter in enumerate(meters, 1)).encode()
    ample = refusing.run([HEAD_END, "run", "--password", PASSWORD, "--workers", "2", "--timeout", "5"], jobs)
    wanted = "".join(f"m{number} {row}\n" for number, (_, row) in enumerate(METERS, 1)).encode()
    check(f"{name}: ample memory", (ample.status, ample.output) == (0, wanted), ample)
    found = each_refusal(lambda number: campaign_result(jobs, number), ample.allocations, is_each=True)
    print_counts("a campaign of four jobs", found)
    check(name, found["whole: no connection"] and found["one job's row"] and not any("WRONG" in what for what in found), found)
    for meter in meters:
        meter.stop()
        once = all(talk.frames[:2] == [CLIENT_AARQ, REQUESTS["disconnect"]][:len(talk.frames)] for talk in meter.talks)
        check(f"{name}: each command once", once and all(talk.frames.count(REQUESTS["disconnect"]) <= 1 for talk in meter.talks))


def talk(client):
    """Runs the requests of a client. True if all were answered, False if the connection was
    closed."""
    try:
        client.associate()
        client.set(MODE, "1602")
        client.execute(DISCONNECT)
        client.get(STATE)
        client.get_list(STATE, MODE)
        client.release()
        return True
    except (Vanished, OSError):
        return False
    finally:
        client.close()


class RefusedServer(Server):
    """A server with a refused call: a line of its log may be lost, which the log then counts."""

    def wait_for(self, words, times=1):
        wait_until(lambda: self.errors.count(words) >= times or b"log: 1 lines were dropped" in self.errors or not self.reader.is_alive())
        return self.errors.count(words) >= times


def serve_two_clients(number, what="refuse_memory"):
    """Serves two clients, one after the other, with a refused call. Returns whether the trace has
    what they saw."""
    server = RefusedServer("--connections", "2", environment=refusing.environment(**{what: number}))
    if server.process.poll() is None:
        server.end_input()
    clients, whole = [], 0
    for _ in range(2):
        try:
            clients.append(Client(server.port))
            whole += talk(clients[-1])
        except OSError:
            pass
    status, trace, errors = server.end()
    is_fault = status == 4 and "fault: memory\n" in errors
    if not is_fault and (status != 0 or "fault" in errors):
        return f"WRONG: status {status}, {errors}"
    if not whole and ": connected" in errors:
        return f"WRONG: 0 of 2 clients with all answers after an accept, {errors}"
    if not trace:
        return f"the fault, {whole} of 2 clients with all answers" if is_fault else "WRONG: no trace"
    history = play_trace(trace)
    # (each client reads a list, which it does not record; and a call is an event even if there is
    # no memory for its response)
    if not all(is_part_of(client.seen, history) for client in clients) or len(history) > sum(len(client.seen) + 1 for client in clients):
        return f"WRONG: a trace of {len(history)} events"
    return f"{'the fault, and ' * is_fault}the trace is complete, {whole} of 2 clients with all answers"


def a_meter_that_serves_is_refused_memory(name):
    ample = serve_two_clients(0)
    count = refusing.counts()[0]
    check(f"{name}: ample memory", ample == "the trace is complete, 2 of 2 clients with all answers", ample)
    found = each_refusal(serve_two_clients, count)
    print_counts("meter_server serve", found)
    check(name, not any("WRONG" in what for what in found), found)


# The threads of a meter that serves two clients: the log, the console, the workers of blocks, moments
# and presses, and the two clients.
THREADS = 7


def a_meter_that_serves_is_refused_threads(name):
    ample = serve_two_clients(0, "refuse_thread")
    count = refusing.counts()[4]
    check(f"{name}: none refused", (ample, count) == ("the trace is complete, 2 of 2 clients with all answers", THREADS), ample, count)
    for number, wanted in enumerate(2 * ["the fault, 0 of 2 clients with all answers"] + 3 * ["the fault, and the trace is complete, 0 of 2 clients with all answers"]
                                    + 2 * ["the fault, and the trace is complete, 1 of 2 clients with all answers"], start=1):
        found = serve_two_clients(number, "refuse_thread")
        check(f"{name}: thread {number} of {THREADS}", found == wanted, found)


def serve_with_an_open_console(number, what="refuse_memory"):
    """Serves one client with a refused call, while the console stays open. Returns how it
    went: a server that accepts no client ends by itself."""
    server = RefusedServer("--connections", "1", environment=refusing.environment(**{what: number}))
    with contextlib.suppress(OSError):
        talk(Client(server.port))
    if not wait_until(lambda: b", 127." in server.errors or server.process.poll() is not None, seconds=5):
        return f"WRONG: waits for its console, {server.end()}"
    if b", 127." in server.errors:
        server.end()
        return "a client came"
    status, _, errors = server.end()
    return "ended" if status == 4 and errors.endswith("fault: memory\n") else f"WRONG: status {status}, {errors}"


def a_meter_without_clients_ends_before_its_console(name):
    ample = serve_with_an_open_console(0)
    count = refusing.counts()[0]
    check(f"{name}: ample memory", ample == "a client came", ample)
    found = each_refusal(serve_with_an_open_console, count, is_each=True)
    print_counts("meter_server serve with an open console", found)
    check(name, found["ended"] > 0 and not any("WRONG" in what for what in found), found)
    for number in range(1, THREADS - 1):  # (the last two are those of clients)
        found = serve_with_an_open_console(number, "refuse_thread")
        check(f"{name}: thread {number}", found == "ended", found)


def a_press_is_not_made_without_its_thread(name):
    for number in (0, 3, 4, 5):
        server = Server("--connections", "1", environment=refusing.environment(refuse_thread=number))
        # (a server without a thread may have ended)
        with contextlib.suppress(OSError):
            server.say("button")
        with contextlib.suppress(OSError):
            server.end_input()
        with contextlib.suppress(OSError):
            talk(Client(server.port))
        status, trace, errors = server.end()
        presses = [event for event, _ in play_trace(trace)].count("button")
        wanted = (4, 0) if number else (0, 1)
        check(f"{name}: thread {number}", (status, presses) == wanted and ("fault: memory" in errors) == (number > 0), status, trace, errors)


def main():
    global is_long, refusing
    parser = argparse.ArgumentParser()
    parser.add_argument("--long", action="store_true", help="each allocation everywhere")
    is_long = parser.parse_args().long
    for executable in (RUNS, SERVER, PLAYER, HEAD_END):
        if not os.access(executable, os.X_OK):
            print(f"{executable} is missing: run bin/test, or `rt run` in its crate")
            print("0 passed, 1 failed")
            return 1
    refusing = Refusing()
    for function in (calls_are_refused_memory, a_read_of_thresholds_is_refused_memory, programs_are_refused_memory, a_file_of_a_password_is_refused_memory,
                     a_campaign_is_refused_memory, a_meter_that_serves_is_refused_memory, a_meter_that_serves_is_refused_threads,
                     a_meter_without_clients_ends_before_its_console, a_press_is_not_made_without_its_thread):
        test(function)
    refusing.stop()
    print(f"{serving.passed} passed, {serving.failed} failed")
    return 1 if serving.failed else 0


if __name__ == "__main__":
    sys.exit(main())
