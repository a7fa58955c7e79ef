#!/usr/bin/env python3
"""Builds the library for C and its examples with the C compiler of this machine, and compares them
with the programs that the gate or bin/build left.

`meter_server hex` and the example in C get the same streams, byte by byte: stored ones, changed
ones, and random sessions. Both must answer the same, and the trace that C exported must play to the
replies in the answers. Then each call of the heap is refused in turn. The super-loop runs with the
pool, also on 64-bit ARM without a C library (Debian: apt-get install gcc-aarch64-linux-gnu
qemu-user) and with valgrind; a test whose tool is missing is skipped with a message. A meter whose
state is in simulated flash has its power cut wherever it writes. Slots without a meter have it cut
at random, with unstable bits and with calls that fail; this needs only a C compiler.

usage: tests/firmware.py [--long] [--slots]
    --long     every refused call, 1,000 sessions instead of 200, and 50 times the random power cuts
    --slots    only the slots without a meter, which need no built library"""

import argparse
import collections
import os
import pathlib
import random
import re
import shutil
import struct
import subprocess
import sys
import tempfile
import zlib

sys.dont_write_bytecode = True  # importing the modules of tests/ leaves no files

sys.path.insert(0, str(pathlib.Path(__file__).resolve().parent.parent / "bin"))

import serving
import toolchain
from fuzz import mutate, pieces_of, stored_inputs
from serving import (ACTIVE, DEVICE, DISCONNECT, MODE, NORMAL, OBJECTS, PASSWORD, PLAYER, RECONNECT,
                     REGISTER, SERVER, STATE, TOP, check, descriptor, test)

LIBRARY = TOP / "crates" / "meter"
HEADER = LIBRARY / "include" / "meter.h"
HEAPS, EXAMPLES, TOOLS = TOP / "firmware", TOP / "examples" / "firmware", TOP / "tests" / "firmware"
WARNINGS = ["-std=c11", "-Wall", "-Wextra", "-Wpedantic", "-Werror", "-O2"]
INCLUDES = [f"-I{HEADER.parent}", f"-I{HEAPS}", f"-I{EXAMPLES}"]
AARQ = bytes.fromhex("00010001000100386036A1090607608574050801018A0207808B0760857405080201AC0A80083132333435363738BE10040E01000000065F1F040000FEFF0400")
LOOP = """0.0 s: state 1
6.9 s: state 2, supply off
12.0 s: button, result 0
12.0 s: state 1, supply on
15.0 s: state 0, supply off
16.0 s: button, result 2
17.0 s: state 2, supply off
18.0 s: button, result 0
18.0 s: state 1, supply on
frames sent: 8
""".split("\n", 1)[1]
SLOTS = [EXAMPLES / "slots.c", EXAMPLES / "flash_simulated.c"]
SLOT_MODELS = ("bytes", "units", "unstable", "failing", "reads")
STORED = [EXAMPLES / "stored_meter.c", *SLOTS, HEAPS / "heap_pool.c"]
RING = ["-DFLASH_SLOTS=5", "-DFLASH_UNIT=256"]
NEW_LIMITER = ["normal 4294967295", "emergency 4294967295", "minover 0", "minunder 0", "profile 0 FFFFFFFFFFFFFFFFFF8000FF 0", "groups", "actions 0 0", "over 0 0", "under 0 0"]
PC_TARGET, ARM_TARGET = "x86_64-unknown-linux-gnu", "aarch64-unknown-linux-gnu"
ARM = ("aarch64-linux-gnu-gcc", "qemu-aarch64")  # compiles for 64-bit ARM and runs it

place = None  # the folder of all that is built
is_long = False


def run_checked(*words):
    """Runs a command that must succeed; returns its output."""
    ran = subprocess.run([str(word) for word in words], capture_output=True, text=True)
    assert ran.returncode == 0, f"{words[0]}: {ran.stdout}{ran.stderr}"
    return ran.stdout


def archives():
    """Builds the library for this processor, and for 64-bit ARM if that can run here; returns the
    paths of the archives. Over what the gate leaves in a new clone each target costs a check of the
    crate, so ARM is then built only with --long."""
    rt = toolchain.command()
    rt.rtlib.guarded()  # the first call sets a signal handler, which only the main thread may do
    crate = next(it for it in rt.rtlib.crates_below(str(TOP)) if it.name == LIBRARY.name)
    is_after_ci = toolchain.is_left_by_ci(rt, [crate])
    build = build_as_ci if is_after_ci else build_with_lib
    targets = [PC_TARGET, ARM_TARGET] if has_arm() and (is_long or not is_after_ci) else [PC_TARGET]
    return {target: build(rt, crate, target) for target in targets}


def build_with_lib(rt, crate, target):
    """Builds with `rt lib`, over the libraries that earlier checks proved."""
    copy = place / f"libmeter-{target}.a"
    ran = subprocess.run(["rt", "lib", "--target", target], cwd=LIBRARY, capture_output=True, text=True)
    assert ran.returncode == 0, ran.stdout + ran.stderr
    shutil.copy(LIBRARY / "out" / "libmeter.a", copy)
    return copy


def build_as_ci(rt, crate, target):
    """Builds as `rt ci` builds a program: a check, and the compiler over what it proved. It uses
    one job, which costs least, since other stages run in parallel."""
    checked, copy = place / f"checked-{target}", place / f"libmeter-{target}.a"
    rt.rtlib.Crate.cuts_libraries = True
    words = [*crate.words(["--jobs", "1"], keeps=False), *(["--target", target] if target != PC_TARGET else [])]
    with open(place / "log", "w+", encoding="utf-8", errors="replace") as crate.out:
        status = crate.call(rt.rtlib.RATTLE, "check", *words, "-o", str(checked))
        for flag in ("--logic-built", "--jobs"):
            at = words.index(flag)
            words = [*words[:at], *words[at + 2 :]]
        how = ["--crate-checked", str(checked), "--toolchain", f"{rt.KIT}/toolchain", "--backend", "llvm", "-o", str(copy)]
        status = status or crate.call(rt.rtlib.RATTLE, "build", *words, *how)
    assert status == 0, (place / "log").read_text()
    return copy


def program(name, *sources, compiler="cc", words=()):
    """Compiles a C program; returns its path."""
    run_checked(compiler, *WARNINGS, *words, *INCLUDES, *sources, "-o", place / name)
    return place / name


# ---- sessions

def frame(payload):
    """A frame of the management client with this payload."""
    return bytes.fromhex("000100010001") + len(payload).to_bytes(2, "big") + payload


def request(chance):
    """A request and the kind of its response."""
    what = chance.randrange(8)
    if what < 3:
        return bytes.fromhex("C001C1" + descriptor(chance.choice((STATE, MODE, NORMAL, ACTIVE, REGISTER, DEVICE, OBJECTS, (70, "0000600000FF", 2)))) + "00")
    if what == 3:
        return bytes.fromhex(f"C101C1{descriptor(MODE)}00160{chance.randrange(8)}")
    if what == 4:
        return bytes.fromhex(f"C101C1{descriptor(NORMAL)}0006{chance.randrange(1 << 32):08X}")
    if what == 5:
        return bytes.fromhex(f"C301C1{descriptor(chance.choice((DISCONNECT, RECONNECT)))}010F00")
    if what == 6:
        return bytes.fromhex("C002C100000001")
    return bytes.fromhex(f"C003C102{descriptor(STATE)}00{descriptor(DEVICE)}00")


def session(chance):
    """A stream with an association and some requests."""
    return AARQ + b"".join(frame(request(chance)) for _ in range(chance.randrange(1, 30)))


def by_program(stream, *words):
    """What `meter_server hex` answers to a stream."""
    return run_hex(["hex", "--password", PASSWORD], SERVER, stream)


def run_hex(words, executable, stream, **environment):
    """Runs a program with a stream in hexadecimal; returns status, output and errors."""
    ran = subprocess.run([str(executable), *words], input=stream.hex().encode(), capture_output=True, timeout=60, env={**os.environ, **environment})
    return ran.returncode, ran.stdout, ran.stderr


def replies_in(answers):
    """The replies to events in the frames of the meter; for a value in blocks, the first block."""
    replies = []
    for line in answers.decode().split():
        payload = line[16:]
        if payload.startswith("C401C100"):
            replies.append(f"value {payload[8:]}")
        elif payload.startswith("C402C1") and payload[6:18] == "000000000100":
            replies.append(f"value {payload[20:]}..")
        elif payload.startswith(("C401C101", "C501C1")):
            replies.append(f"code {int(payload[-2:], 16)}")
        elif payload.startswith("C701C1"):
            replies.append(f"code {int(payload[6:8], 16)}")
        elif payload.startswith("C403C1"):
            replies.append("values")
    return replies


def is_reply(reply, played):
    """Whether a reply that a client saw is that of the played trace."""
    if reply == "values":
        return played.startswith("values ")
    return played.startswith(reply[:-2]) if reply.endswith("..") else played == reply


def run_of(trace):
    """The replies of a trace that `trace_player` plays."""
    ran = subprocess.run([str(PLAYER)], input=trace, capture_output=True, timeout=60)
    return [line.split("; ")[0].split(": ", 1)[1] for line in ran.stdout.decode().splitlines()] if ran.returncode == 0 else None


# ---- the tests

def the_header_has_the_exports(name):
    exported = set(re.findall(r" T (meter_\w+)$", run_checked("nm", "--defined-only", place / f"libmeter-{PC_TARGET}.a"), re.M))
    declared = set(re.findall(r"\b(meter_\w+)\(struct meter", HEADER.read_text()))
    check(name, exported == declared and exported, exported ^ declared)


def the_header_has_the_types_of_the_exports(name):
    """The header declares each parameter of an export with its C type."""
    source = "".join(it.read_text() for it in sorted((LIBRARY / "src").glob("*.rt")))
    header = re.sub(r"/\*.*?\*/", "", HEADER.read_text(), flags=re.S)
    types = {"&mut MeterHandle": ["struct meter *"], "&[u8]": ["const uint8_t *", "size_t "], "&mut [u8]": ["uint8_t *", "size_t "], "&[u32]": ["const uint32_t *", "size_t "],
             "u8": ["uint8_t "], "u16": ["uint16_t "], "u32": ["uint32_t "], "&mut u8": ["uint8_t *"], "&mut u32": ["uint32_t *"], "&mut usize": ["size_t *"],
             "&mut bool": ["bool *"], "&mut Firings": ["struct meter_fired *"], "Global": []}
    for export, parameters in re.findall(r'extern "C" fn (meter_\w+)\(([^)]*)\)', source):
        wanted = [it for one in parameters.split(",") if one.strip() for it in types.get(one.split(":")[1].strip(), ["unknown " + one])]
        found = re.search(rf"\b{export}\(([^)]*)\)", header)
        declared = [re.sub(r"\w+$", "", one.strip()) for one in found[1].split(",")] if found else None
        check(f"{name}: {export}", declared == wanted, declared, wanted)


def the_header_has_the_numbers_of_the_definitions(name):
    """The header has the number of each result from the definition that the contracts use."""
    words = {"Done": "OK", "Wait": "WAIT", "Closed": "CLOSED", "Cut": "CUT", "BadVersion": "BAD_VERSION", "TooLong": "TOO_LONG", "Stale": "STALE", "NoMoment": "NO_MOMENT",
             "NoMemory": "NO_MEMORY", "NotOpen": "NOT_OPEN", "IsOpen": "IS_OPEN", "NoSession": "NO_SESSION", "SessionTaken": "SESSION_TAKEN", "WrongArgument": "WRONG_ARGUMENT",
             "NoRoom": "NO_ROOM"}
    defined = dict(re.findall(r"(?m)^code_of outcome\.(\w+) = (\d+)$", (LIBRARY / "specs" / "Outcomes.antt").read_text()))
    declared = dict(re.findall(r"\bMETER_(\w+) = (\d+)", HEADER.read_text().split("typedef uint32_t meter_result;")[1].split("};")[0]))
    check(name, {words.get(word): number for word, number in defined.items()} == declared and len(declared) == len(words), defined, declared)


def each_export_answers(name):
    ran = run_checked(place / "exports_test")
    check(name, ran == "all exports passed\n", ran)


def streams_are_answered_as_by_the_program(name):
    chance = random.Random(22)
    seeds = [text for text in map(pieces_of, stored_inputs(("meter_server_cli", ["hex"]))) if text] + [AARQ + frame(request(chance))]
    sessions = [session(chance) for _ in range(1000 if is_long else 200)]
    others = [mutate(chance.choice(seeds), chance, seeds) for _ in range(1000 if is_long else 200)]
    events = 0
    for stream in seeds + sessions + others:
        wanted = run_hex(["hex", "--password", PASSWORD], SERVER, stream)
        found = run_hex([PASSWORD, place / "trace"], place / "session", stream)
        if (found[0], found[1]) != (wanted[0], wanted[1]):
            check(f"{name}: {stream.hex()}", False, found, wanted)
        run = run_of((place / "trace").read_bytes())
        if run is None:
            check(f"{name}: the trace plays: {stream.hex()}", False)
        elif stream in sessions:
            seen = replies_in(found[1])
            events += len(run)
            if len(seen) != len(run) or not all(map(is_reply, seen, run)):
                check(f"{name}: the trace has the replies: {stream.hex()}", False, seen, run)
    print(f"{len(seeds)} stored streams, {len(sessions)} sessions and {len(others)} changed streams, each byte by byte; {events} events in the traces of the sessions")
    check(name, events > len(sessions))


def each_refusal_can_be_made_again(name):
    chance = random.Random(7)
    stream = AARQ + b"".join(frame(bytes.fromhex(it)) for it in (
        f"C001C1{descriptor(OBJECTS)}00", "C002C100000001", f"C101C1{descriptor(MODE)}001601", f"C301C1{descriptor(DISCONNECT)}010F00",
        f"C003C102{descriptor(STATE)}00{descriptor(DEVICE)}00", f"C001C1{descriptor(STATE)}00"))
    ample = run_hex([PASSWORD, place / "trace"], place / "refused", stream)
    trace = (place / "trace").read_bytes()
    calls = int(re.search(rb"calls (\d+)", ample[2])[1])
    check(f"{name}: ample memory", ample[:2] == run_hex(["hex", "--password", PASSWORD], SERVER, stream)[:2] and b"blocks left 0" in ample[2], ample)
    numbers = range(1, calls + 1) if is_long else sorted({1, calls, *chance.sample(range(1, calls + 1), min(calls, 60))})
    found = collections.Counter()
    for number in numbers:
        ran = run_hex([PASSWORD, place / "trace"], place / "refused", stream, REFUSE=str(number))
        is_same = ran[:2] == ample[:2] and b"blocks left 0" in ran[2] and (place / "trace").read_bytes() == trace
        found["same answers and trace, no block left"] += is_same
        if not is_same:
            check(f"{name}: call {number}", False, ran)
    print(f"calls of the heap: {calls}; refused one by one: {len(numbers)}, with these results: {dict(found)}")
    check(name, sum(found.values()) == len(numbers))


def the_pool_keeps_its_blocks(name):
    program("pool_test", TOOLS / "pool_test.c", HEAPS / "heap_pool.c")
    print("pool:", run_checked(place / "pool_test").strip())
    check(name, True)


def the_super_loop_runs(name):
    ran = run_checked(place / "super_loop")
    print("super-loop:", ran.splitlines()[-1])
    check(name, ran.startswith(LOOP) and ran.endswith("left: 0\n"), ran)


def state_text(*lines, scripts):
    """The text of a state without events, with these lines up to the export limiter, which is
    new."""
    exporting = ["xvalue 0", *["x" + line for line in NEW_LIMITER]]
    schedules = [f"schedule {number} 0 5 0100" for number in range(4)]
    return "".join(line + "\n" for line in ("RELAYTRACE 2", "device 52454C415931", *lines, *exporting, f"scripts {scripts}", *schedules, "events 0")).encode()


def texts_in(image, slots, size, unit):
    """The sequence number and the text of each slot, by the layout that slots.h describes."""
    texts = {}
    for slot in range(slots):
        header, rest = image[slot * size:slot * size + 16], image[slot * size + unit:(slot + 1) * size]
        word, sequence, length, checksum = struct.unpack("<4sIII", header)
        assert word == b"MSL1" and zlib.crc32(header[:12] + rest[:length]) == checksum, (slot, header)
        assert set(rest[length:-unit]) == {0xFF} and set(rest[-unit:]) == {0}, slot
        texts[sequence] = rest[:length]
    return texts


def slots_lose_no_text(name):
    """Writes of texts to slots that are cut at random, in each model of the simulated flash. With
    two slots, a text can be lost only if interrupted bits are unstable, so those models are not
    run."""
    runs = 200_000 if is_long else 4_000
    for slots, models in ((2, ("bytes", "units", "failing", "reads")), (3, SLOT_MODELS), (5, SLOT_MODELS)):
        built = program(f"slot_cuts_{slots}", TOOLS / "slot_cuts.c", *SLOTS, words=[f"-DFLASH_SLOTS={slots}", "-DFLASH_SLOT_BYTES=512"])
        for model in models:
            ran = subprocess.run([str(built), model, str(runs)], capture_output=True, text=True)
            print(ran.stdout.strip())
            check(f"{name}: {slots} slots, {model}", ran.returncode == 0 and f"good {runs}," in ran.stdout, ran)


def a_power_cut_loses_nothing_that_was_answered(name):
    """Each write of a run is cut, in each manner; then pairs of writes are, also with unstable
    bits."""
    pairs = 50_000 if is_long else 1_000
    print("three slots:", *run_checked(place / "power_cuts", "single").splitlines(), sep="\n  ")
    print("five slots:", *run_checked(place / "power_cuts_ring", "single", 1 if is_long else 29).splitlines()[1:], sep="\n  ")
    for built in ("power_cuts", "power_cuts_two", "power_cuts_ring"):
        check(f"{name}: pairs, {built}", "runs with two cuts" in run_checked(place / built, "double", pairs))
    for built in ("power_cuts", "power_cuts_ring"):
        check(f"{name}: unstable bits, {built}", "runs with two cuts" in run_checked(place / built, "unstable", pairs))


def damaged_slots_have_a_defined_result(name):
    for built in ("power_cuts", "power_cuts_two", "power_cuts_ring"):
        ran = run_checked(place / built, "damage")
        check(f"{name}: {built}", ran.endswith("all results of damaged slots are as defined\n"), ran)


def the_slots_have_the_described_layout(name):
    """The slots after the run, whose last two texts were worked out by hand. The last save but one
    followed a press that reconnected, which ends a run, and moment 2000; the last one followed ten
    samples of 3,000 W."""
    script = "010102021200010101020516021200460906000060030AFF0F010F00"
    limits = ["normal 5000", "emergency 4294967295", "minover 2", "minunder 0", "profile 0 FFFFFFFFFFFFFFFFFF8000FF 0", "groups", "actions 1 0"]
    before = state_text("state 1", "mode 1", "value 6000", "now 2000", *limits, "over 0 0", "under 0 0", scripts=script)
    after = state_text("state 1", "mode 1", "value 3000", "now 2000", *limits, "over 0 0", "under 10 1", scripts=script)
    for built, slots, unit in (("power_cuts", 3, 16), ("power_cuts_ring", 5, 256)):
        image = subprocess.run([str(place / built), "image"], capture_output=True, check=True, timeout=60).stdout
        texts = texts_in(image, slots, 16384, unit)
        newest = max(texts)
        check(f"{name}: {slots} slots", len(texts) == slots and (texts[newest - 1], texts[newest]) == (before, after), texts)
        check(f"{name}: trace_player reads each text", all(run_of(text) == [] for text in texts.values()))


def limiter_lines(mark, run):
    """The longest lines of a limiter, with or without the x of the export limiter."""
    return [mark + line for line in (
        "value 4294967294", "normal 4294967295", "emergency 4294967295", "minover 4294967295", "minunder 4294967295", "profile 65535 07D00101FF00012800800000 4294967295",
        "groups" + 32 * " 65535", "actions 65535 65535", *run)]


def largest_state():
    """The text of the largest state: 16 scripts of eight steps that each write an emergency
    profile, and four schedules of 16 entries."""
    run = ("over 0 0", "under 42949672950 1")
    step = "0205160112004709060000110000FF0F08020312FFFF090C07D00101FF0001280080000006FFFFFFFF"
    scripts = "0110" + "".join(f"020212{65535 - number:04X}0108" + 8 * step for number in range(16))
    entries = "0110" + 16 * "02020904173B3B000905FFFFFFFEFF"
    lines = ["RELAYTRACE 2", "device " + 16 * "41", "state 1", "mode 6", limiter_lines("", run)[0], "now 4294967295", *limiter_lines("", run)[1:], *limiter_lines("x", run),
             f"scripts {scripts}", *[f"schedule {number} 65535 5 {entries}" for number in range(4)], "events 0"]
    return "".join(line + "\n" for line in lines).encode()


def the_largest_state_fits_a_slot(name):
    """The longest export is one byte longer than the measured one: the management client's port is
    1, the public one's 16."""
    header = (EXAMPLES / "stored_meter.h").read_text()
    state, export = (int(re.search(rf"#define STORED_{word}_BYTES (\d+)", header)[1]) for word in ("STATE", "EXPORT"))
    ran = subprocess.run([str(place / "power_cuts"), "largest"], input=largest_state(), capture_output=True, timeout=60)
    print("largest:", ran.stdout.decode().strip())
    check(name, ran.returncode == 0 and len(largest_state()) == state and ran.stdout.startswith(f"state {state}, export {export - 1}, ".encode()), ran, len(largest_state()))


def valgrind_finds_nothing(name):
    if not shutil.which("valgrind"):
        print("SKIPPED valgrind: not installed (Debian: apt-get install valgrind)")
        return
    for words in ([place / "session", PASSWORD], [place / "super_loop"], [place / "power_cuts", "single", "1999"]):
        ran = subprocess.run(["valgrind", "--quiet", "--leak-check=full", "--error-exitcode=9", *map(str, words)], input=(AARQ + frame(request(random.Random(1)))).hex().encode(),
                             capture_output=True, timeout=120)
        check(f"{name}: {words[0].name}", ran.returncode == 0, ran.stderr)


def has_arm():
    """Whether a compiler for 64-bit ARM and QEMU are installed."""
    return all(map(shutil.which, ARM))


def the_super_loop_runs_on_arm(name):
    archive = place / f"libmeter-{ARM_TARGET}.a"
    if not archive.exists():
        print("SKIPPED 64-bit ARM: after the gate it is built only with --long" if has_arm()
              else "SKIPPED 64-bit ARM: not installed (Debian: apt-get install gcc-aarch64-linux-gnu qemu-user)")
        return
    program("super_loop_arm", EXAMPLES / "super_loop.c", EXAMPLES / "platform_bare.c", HEAPS / "heap_pool.c", archive, compiler=ARM[0],
            words=["-std=gnu11", "-ffreestanding", "-nostdlib", "-static"])
    ran = run_checked(ARM[1], place / "super_loop_arm")
    check(name, ran == run_checked(place / "super_loop"), ran)


def power_cuts_lose_nothing_on_arm(name):
    archive = place / f"libmeter-{ARM_TARGET}.a"
    if archive.exists():
        program("power_cuts_arm", TOOLS / "power_cuts.c", *STORED, archive, compiler=ARM[0], words=["-static"])
        check(name, "runs with one cut" in run_checked(ARM[1], place / "power_cuts_arm", "single",
                                                       499))


def summary():
    """Prints the numbers of checks; returns the exit status."""
    print(f"{serving.passed} passed, {serving.failed} failed")
    return 1 if serving.failed else 0


def main():
    global place, is_long
    parser = argparse.ArgumentParser()
    parser.add_argument("--long", action="store_true", help="every refused call, 1,000 sessions instead of 200, and 50 times the random power cuts")
    parser.add_argument("--slots", action="store_true", help="only the slots without a meter, which need no built library")
    words = parser.parse_args()
    is_long = words.long
    if not shutil.which("cc"):
        print("SKIPPED: no C compiler is installed (no command cc)\n0 passed, 0 failed")
        return 0
    with tempfile.TemporaryDirectory() as folder:
        place = pathlib.Path(folder)
        test(slots_lose_no_text)
        if words.slots:
            return summary()
        archive = archives()[PC_TARGET]
        program("session", EXAMPLES / "session.c", HEAPS / "heap_malloc.c", archive)
        program("refused", EXAMPLES / "session.c", TOOLS / "refusing_heap.c", archive)
        program("super_loop", EXAMPLES / "super_loop.c", EXAMPLES / "platform_hosted.c", HEAPS / "heap_pool.c", archive)
        program("power_cuts", TOOLS / "power_cuts.c", *STORED, archive)
        program("power_cuts_two", TOOLS / "power_cuts.c", *STORED, archive, words=["-DFLASH_SLOTS=2"])
        program("power_cuts_ring", TOOLS / "power_cuts.c", *STORED, archive, words=RING)
        program("exports_test", TOOLS / "exports_test.c", HEAPS / "heap_malloc.c", archive)
        for one in (the_header_has_the_exports, the_header_has_the_types_of_the_exports, the_header_has_the_numbers_of_the_definitions, each_export_answers,
                    the_pool_keeps_its_blocks, streams_are_answered_as_by_the_program, each_refusal_can_be_made_again, the_super_loop_runs,
                    a_power_cut_loses_nothing_that_was_answered, damaged_slots_have_a_defined_result, the_slots_have_the_described_layout, the_largest_state_fits_a_slot, valgrind_finds_nothing,
                    the_super_loop_runs_on_arm, power_cuts_lose_nothing_on_arm):
            test(one)
    return summary()


if __name__ == "__main__":
    sys.exit(main())
