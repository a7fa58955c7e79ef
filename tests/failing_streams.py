#!/usr/bin/env python3
"""Makes each read and write in turn fail, transfer one byte, or be interrupted, in the proved
executables that the gate left: the standard streams of the programs, the connections of a client
(`head_end run`), and a meter that serves two clients. After a failure nothing more is written on
that stream and the fault is reported; a short or an interrupted call changes nothing. An `accept`
of the meter fails by each error that passes, and by one that ends it. If its log fails, it serves
without.

usage: tests/failing_streams.py"""

import collections
import errno
import os
import sys
import tempfile

sys.dont_write_bytecode = True  # importing the modules of tests/ leaves no files

import serving
from campaigns import HEAD_END
from refused_memory import METERS, PROGRAMS, print_counts, talk
from refusing import Refusing
from scripted_meters import AARQ as CLIENT_AARQ
from scripted_meters import RELEASE, REQUESTS, ScriptedMeter
from serving import (NO_CLIENT, PASSWORD, PLAYER, RELEASED, SERVER, STATE, Client, Server, check, connect_again, is_part_of,
                     play_trace, test, wait_until)

READ_FAULT = b"standard input: a read failed\nfault: read\n"
WRITE_FAULT = b"standard output: a write failed\nfault: write\n"
CONSOLE_FAILED = "console: reading failed, no further line is read\n"
HARMLESS = ("short_stream", "interrupt_stream")
# The errors after which accept(2) says to try again, and those of a lack of descriptors or memory.
PASSING = (errno.EPERM, errno.ENOMEM, errno.ENFILE, errno.EMFILE, errno.ENONET, errno.EPROTO, errno.ENOPROTOOPT, errno.EOPNOTSUPP,
           errno.ENETDOWN, errno.ENETUNREACH, errno.ECONNABORTED, errno.ENOBUFS, errno.EHOSTDOWN, errno.EHOSTUNREACH)
refusing = None


def each_call(run, how, count):
    """Counts the results of `run` over the calls that fail, are short or are interrupted. The
    number of the call is passed as the argument `how`."""
    return collections.Counter(run(**{how: number}) for number in range(1, count + 1))


def fault_of(errors):
    """The fault that a program reports, or None if it reports none or something else."""
    return {READ_FAULT: "fault: read", WRITE_FAULT: "fault: write"}.get(errors)


def after_failure(ran, ample):
    """The result of a failed call: the output must be a prefix of that of a run without failures,
    and nothing may follow the fault."""
    fault = fault_of(ran.errors)
    if ran.status != 3 or not fault or not ample.output.startswith(ran.output) or ran.late:
        return f"WRONG: {ran}"
    return fault


def after_harmless(ran, ample):
    """Returns `same output` if a short or interrupted call changed nothing, or what is wrong."""
    return "same output" if ran[:3] == ample[:3] else f"WRONG: {ran}"


def programs_have_failing_streams(name):
    for title, program, words, text, _ in PROGRAMS:
        ample = refusing.run([program, *words], text)
        found = each_call(lambda **which: after_failure(refusing.run([program, *words], text, **which), ample), "fail_stream", ample.streams)
        print_counts(f"{title}, failing", found, "calls failed")
        check(f"{name}: {title}", set(found) == {"fault: read", "fault: write"}, found)
        for how in HARMLESS:
            found = each_call(lambda **which: after_harmless(refusing.run([program, *words], text, **which), ample), how, ample.streams)
            print_counts(f"{title}, {how.split('_')[0]}", found, "calls")
            check(f"{name}: {title}: {how}", set(found) == {"same output"}, found)


def campaign(jobs, **which):
    """Runs a campaign with one worker, in which one call may fail."""
    return refusing.run([HEAD_END, "run", "--password", PASSWORD, "--workers", "1", "--timeout", "5"], jobs, **which)


def campaign_result(jobs, **which):
    """The result of a campaign with a failed call: the fault of a standard stream, or a report in
    which at most the job of the failed connection is unknown."""
    ran = campaign(jobs, **which)
    if ran.late:
        return f"WRONG: a write after the failure: {ran}"
    if ran.status == 3 and fault_of(ran.errors) and not ran.output:
        return fault_of(ran.errors)
    rows = [line.split(" ", 1)[1] for line in ran.output.decode().splitlines()]
    differing = [row for row, (_, wanted) in zip(rows, METERS) if row != wanted]
    if ran.status != 0 or ran.errors or len(rows) != len(METERS) or differing not in ([], ["unknown"]):
        return f"WRONG: {ran}"
    return "one job unknown" if differing else "the same report"


def a_client_has_failing_connections(name):
    meters = [ScriptedMeter(script) for script, _ in METERS]
    jobs = "".join(f"m{number} 127.0.0.1:{meter.port} disconnect\n" for number, meter in enumerate(meters)).encode()
    ample = campaign(jobs)
    found = each_call(lambda **which: campaign_result(jobs, **which), "fail_stream", ample.streams)
    print_counts("a campaign of four jobs, failing", found, "calls failed")
    check(name, found["one job unknown"] and found["fault: read"] and found["fault: write"] and not any("WRONG" in what for what in found), found)
    for how in HARMLESS:
        found = each_call(lambda **which: after_harmless(campaign(jobs, **which), ample), how, ample.streams)
        print_counts(f"a campaign of four jobs, {how.split('_')[0]}", found, "calls")
        check(f"{name}: {how}", set(found) == {"same output"}, found)
    for meter in meters:
        meter.stop()
        fronts = [[CLIENT_AARQ, REQUESTS["disconnect"], RELEASE][:len(talk.frames)] for talk in meter.talks]
        check(f"{name}: each command at most once", [talk.frames for talk in meter.talks] == fronts)


def serve_two_clients(**which):
    """Serves two clients, one after the other, with a failed call. Returns whether the trace has
    what they saw. The console's read is the first call in every run, since the clients wait for
    it."""
    server = Server("--connections", "2", environment=refusing.environment(**which))
    server.end_input()
    refusing.wait_for_end_of_input()
    clients, whole = [], 0
    for _ in range(2):
        clients.append(Client(server.port))
        whole += talk(clients[-1])
    status, trace, errors = server.end()
    late = refusing.counts()[2]
    if late:
        return "WRONG: a write after the failure"
    if status == 3 and errors.endswith(WRITE_FAULT.decode()) and whole == 2:
        return "fault: write of the trace"
    has_no_console = status == 3 and errors.endswith("fault: read\n") and CONSOLE_FAILED in errors
    if not has_no_console and (status != 0 or "fault" in errors or "console" in errors):
        return f"WRONG: status {status}, {errors}"
    history = play_trace(trace)
    if not all(is_part_of(client.seen, history) for client in clients) or len(history) > sum(len(client.seen) + 1 for client in clients):
        return f"WRONG: a trace of {len(history)} events"
    return f"{'the fault of the console, and ' * has_no_console}the trace is complete, {whole} of 2 clients with all answers"


def a_meter_has_failing_connections(name):
    everything = "the trace is complete, 2 of 2 clients with all answers"
    ample = serve_two_clients()
    count = refusing.counts()[1]
    check(f"{name}: nothing fails", ample == everything, ample)
    found = each_call(serve_two_clients, "fail_stream", count)
    print_counts("meter_server serve, failing", found, "calls failed")
    wanted = ("the trace is complete, 1 of 2 clients with all answers", "fault: write of the trace",
              "the fault of the console, and the trace is complete, 2 of 2 clients with all answers")
    check(name, all(found[what] for what in wanted) and not any("WRONG" in what for what in found), found)
    for how in HARMLESS:
        found = each_call(serve_two_clients, how, count)
        print_counts(f"meter_server serve, {how.split('_')[0]}", found, "calls")
        check(f"{name}: {how}", set(found) == {everything}, found)


class UnheardServer(Server):
    """A server whose log may be lost, so that nobody waits for a line of it."""

    def wait_for(self, words, times=1):
        return words in self.errors


def a_log_that_fails_stops_nobody(name):
    """The log's queue fails at each of its reads and writes in turn."""
    for number in range(1, 21):
        server = UnheardServer("--connections", "2", environment=refusing.environment(fail_log=number))
        server.end_input()
        clients = [connect_again(server)]
        clients.append(connect_again(server))
        is_answered = all(client.get(STATE) == "value 1601" and client.release() == RELEASED for client in clients)
        for client in clients:
            client.close()
        status, trace, errors = server.end()
        check(f"{name}: call {number}", is_answered and status == 0 and "fault" not in errors, status, errors)
        check(f"{name}: call {number}, played", all(is_part_of(client.seen, play_trace(trace)) for client in clients))


def errors_of_accept_pass(name):
    for number in PASSING:
        server = Server("--connections", "1", environment=refusing.environment(fail_accept=1, accept_error=number))
        client = server.client()
        check(f"{name}: a client is served", client.get(STATE) == "value 1601")
        client.close()
        status, _, errors = server.end()
        lines = [line for line in errors.encode().splitlines(keepends=True) if NO_CLIENT in line or b"Z clients are accepted again\n" in line]
        wanted = 0 if number == errno.ECONNABORTED else 2
        check(f"{name}: {errno.errorcode[number]}", status == 0 and "fault" not in errors and len(lines) == wanted, status, errors)


def a_listener_that_fails_ends_the_server(name):
    """Standard input stays open: the server ends by itself, once its session has ended."""
    with tempfile.TemporaryDirectory() as folder:
        for options in ((), ("--journal", f"{folder}/journal")):
            server = Server(*options, environment=refusing.environment(fail_accept=2, accept_error=errno.EINVAL))
            client = server.client()
            check(f"{name}: reported at once", server.wait_for(b"Z listening failed, no further client is accepted: Invalid argument"), server.errors)
            check(f"{name}: the open session continues", client.get(STATE) == "value 1601")
            client.close()
            check(f"{name}: it ends by itself", wait_until(lambda: server.process.poll() is not None))
            status, trace, errors = server.end()
            check(f"{name}: the fault", status == 3 and errors.endswith("fault: listen\n"), status, errors)
            check(f"{name}: played", is_part_of(client.seen, play_trace(trace)))


def main():
    global refusing
    for executable in (SERVER, PLAYER, HEAD_END):
        if not os.access(executable, os.X_OK):
            print(f"{executable} is missing: run bin/test, or `rt run` in its crate")
            print("0 passed, 1 failed")
            return 1
    refusing = Refusing()
    for function in (programs_have_failing_streams, a_client_has_failing_connections, a_meter_has_failing_connections,
                     a_log_that_fails_stops_nobody, errors_of_accept_pass, a_listener_that_fails_ends_the_server):
        test(function)
    refusing.stop()
    print(f"{serving.passed} passed, {serving.failed} failed")
    return 1 if serving.failed else 0


if __name__ == "__main__":
    sys.exit(main())
