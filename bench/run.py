#!/usr/bin/env python3
"""Times a program with the words of catnap on generated inputs.

usage: bench/run.py PROGRAM [--beside OTHER] [--count] [--double] [REPEATS] [CASE..]

Prints one line a case: its name, the median seconds of REPEATS runs (5), the peak memory in KB, the status and the
count of bytes written. A CASE that ends in '-' stands for all whose names begin so, as 'replay-'. With OTHER, a
second program that answers the same words, a line for it follows each. It says 'alike' where status and bytes are
those of the first, and how many times the seconds and the memory of OTHER the first program takes.

With --count the instructions of one run are counted (by valgrind), in place of seconds: they hardly depend on what else
the machine does. With --double each case is also run on half of its input, and the line says how many times the cost is
that of the half.
"""
import os
import re
import statistics
import struct
import subprocess
import sys
import tempfile
import time


def long_task(statement, count):
    """A source whose one task does a statement over and over, and the words that run it whole."""
    return "int x = 0; task t {\n" + (statement + "\n") * count + "} start t;\n"


LOOP = "int i = 0; int a[64]; task t { while i < 1000000 { a[i] = a[i - 1] + i; i = i + 1; } } start t;\n"
OUTPUTS = "int i = 0; task t { while true { out 1, i; i = i + 1; } } start t;\n"

DEVICE = """cap = 1000000
start = 0
resume = 0
log = 100
p = 720720
q = {q}
fill = "00"
""" + "".join(f"[{name}]\nticks = 1\nbound = 1\nactual = 1\n" for name in ("basic", "memory", "out", "write", "wake"))

# up to 16 events whose window is 720,720 ticks, and three mentions of each in their degrade order
SPACINGS = [1001, 1008, 1040, 1092, 1144, 1170, 1232, 1260, 1287, 1365, 1386, 1430, 1456, 1540, 1560, 1584]


def many_events(count):
    versions = "{{ out 1, {0}; }} else {{ out 1, 1; }} else {{ out 1, 2; }} else {{ out 1, 3; }}"
    events = [f"event e{i} spacing {t} deadline {t} {versions.format(i)}\n" for i, t in enumerate(SPACINGS[:count])]
    return "".join(events) + ("degrade " + ", ".join(f"e{i}" for i in range(count)) + ";\n") * 3


TOP = "cap = 1000\nstart = 1000\nresume = 0\nlog = 1000000\np = 10\nq = {q}\nfill = \"00\"\n"
COSTS = (("basic", 1, 1), ("memory", 1, 2), ("out", 1, 4), ("write", 1, 3), ("wake", 2, 5))
NODE = TOP + "".join(f"[{name}]\nticks = {ticks}\nbound = {units}\nactual = {units}\n" for name, ticks, units in COSTS)
WORK = "int x = 0; int a[16]; task t { while true { a[x] = a[x] + x * 3 - 1; x = x + 1; if x > 1000 { x = 0; } } } start t;\n"
ONE_EVENT = "int x = 0; event e spacing 100 deadline 50 { out 1, x; }\n"
PERIODIC = "int x = 0; event e every 100 offset 0 deadline 50 { x = x + payload; out 1, x; }\n"


def table(header, rows):
    return header + "\n" + "".join(row + "\n" for row in rows)


def trace(*rows):
    return table("ticks,harvest,extra,sample", rows)


def replay(source, device, ticks, arrivals=(), failures=()):
    """The files and words of a replay."""
    files = {
        "S": source,
        "D": device,
        "T": ticks,
        "A": table("tick,event,payload", arrivals),
        "F": table("tick,fill", failures),
    }
    return files, ["replay", "S", "D", "T", "A", "F"]


def image(case):
    """The same files for the command `image`."""
    files, words = case
    return files, ["image", *words[1:]]


def resume(case, saved):
    """The same files and a saved image for the command `resume`."""
    files, words = case
    return {**files, "I": saved}, ["resume", *words[1:], "I"]


def saved_events(served, ticks):
    """An image of PERIODIC on the device of NODE in which so many events were served, at some tick with nothing under way. The trace has to be that
    of `rests`."""
    records, x = b"", 0
    for index in range(served):
        x += index % 9
        records += struct.pack("<BBHiII", 1, 1, 0, x, 0, 0) + struct.pack("<BBHIII", 2, 0, 0, 0, 100 * index, index)
    slot = struct.pack("<IIIiI", 2 * served, 0, 2**32 - 1, x, served)
    return b"CNI1" + struct.pack("<III", ticks, 1000, 0) + bytes(64) + slot.ljust(128, b"\0") + records.ljust(16000000, b"\0")


def saved_outputs(count):
    """An image of OUTPUTS in which so many values were put out, three steps for each."""
    records = b"".join(struct.pack("<BBHiII", 1, 1, 0, value, 0, 0) for value in range(count))
    slot = struct.pack("<IIIiI", count, 3 * count + 1, 1, count, 0)
    return b"CNI1" + struct.pack("<III", 1000000, 1000, 0) + bytes(64) + slot.ljust(128, b"\0") + records.ljust(16000000, b"\0")


def object_file(words, instructions):
    """The object file of one task that is started once, its instructions given by their numbers, a and c."""
    code = b"".join(struct.pack("<BBHI", number, a, 0, c) for number, a, c in instructions)
    return b"CNO1" + struct.pack("<HBBI", words, 1, 0, len(instructions)) + bytes(4 * words) + struct.pack("<HHI", 1, 0, 0) + code


BEGIN, END, LOAD, PUSH, ADD, STORE, OUT, JUMP, JUMPZERO = (21, 0, 0), (22, 0, 0), (1, 0, 0), (0, 0, 1), (5, 0, 0), (24, 0, 0), (27, 1, 0), (18, 0, 1), (19, 0, 10)
SUMS = [LOAD, PUSH, ADD, STORE]
# OUTPUTS as an object
OUTPUTS_CODE = [BEGIN, PUSH, JUMPZERO, LOAD, OUT, *SUMS, JUMP, END]


def uplink(case, steps):
    """The same files and a link whose packets are sent, delivered and acknowledged in turn."""
    files, words = case
    turns = (f"{step},{i}" for i in range(steps // 3) for step in ("send", "data", "ack"))
    rows = ["grow,999999", *(turn if turn[0] != "s" else "send,0" for turn in turns)]
    return {**files, "L": table("step,n", rows)}, ["uplink", *words[1:], "L"]


def cases(part):
    """The cases, by their names, as files and words: on all of their input, or on one of `part` parts of it."""
    million = 1000000 // part
    many = many_events(16 // part)
    task = long_task("x = x + 1 ;     ", 14999 // part)
    steady = trace(f"{million},50,0,0")
    rests = trace(*(f"90,1,0,{i % 9}\n10,0,0,{i % 5}" for i in range(10000 // part)))
    names = range(1024 // part)
    return {
        "check-16-events": ({"F": many, "D": DEVICE.format(q=1000000)}, ["check", "F", "D"]),
        "check-49-vectors": ({"F": many, "D": DEVICE.format(q=50000 // part)}, ["check", "F", "D"]),
        "check-49-reserves": ({"F": many, "D": DEVICE.format(q=1000000).replace("cap = 1000000", f"cap = {300 // part}")}, ["check", "F", "D"]),
        # a profile of the greatest length
        "check-profile-longest": (
            {"F": "event e spacing 1001 deadline 1001 { out 1, 1; }\n", "D": (DEVICE.format(q=720720) + "#").ljust(16777216 // part, "x")},
            ["check", "F", "D"],
        ),
        "check-60000": ({"F": task, "D": DEVICE.format(q=1000)}, ["check", "F", "D"]),
        "run-loop-1000000": ({"F": LOOP}, ["run", "F", str(million)]),
        "run-outputs-1000000": ({"F": OUTPUTS}, ["run", "F", str(million)]),
        "list-60000": ({"F": task}, ["list", "F"]),
        "object-60000": ({"F": task}, ["object", "F"]),
        # the longest object, verified and run, and one that runs for a million steps
        "runobject-60000": ({"O": object_file(1, [BEGIN, *SUMS * (14999 // part), END])}, ["runobject", "O", "1000000"]),
        "runobject-outputs-1000000": ({"O": object_file(1, OUTPUTS_CODE)}, ["runobject", "O", str(million)]),
        # the harvest is searched for by halves, and each test has a window of 720,720 ticks
        "plan-16-events": ({"F": many, "D": DEVICE.format(q=1)}, ["plan", "F", "D"]),
        "run-14900-sums": ({"F": long_task("x=x+1;", 14900 // part)}, ["run", "F", "1000000"]),
        "run-29000-outputs": ({"F": long_task("out 1,x;", 29000 // part)}, ["run", "F", "1000000"]),
        "run-names-1024": (
            {"F": "".join(f"int v{i} = {i};" for i in names) + "task t {" + "".join(f"v{i}=v{(i * 7 + 3) % len(names)}+1;" for i in names) * 10 + "} start t;"},
            ["run", "F", "1000000"],
        ),
        # a million ticks of task work: without a loss, with one in each ten ticks, and with an output in each round and less harvest than work
        "replay-work-1000000": replay(WORK, NODE.format(q=5), steady),
        "replay-work-100000-failures": replay(WORK, NODE.format(q=5), steady, failures=[f"{10 * i + 3},{i % 256:02X}" for i in range(100000 // part)]),
        "replay-outputs": replay(OUTPUTS, NODE.format(q=5), trace(f"{million},1,0,0")),
        "replay-sleep-1000000": replay(ONE_EVENT, NODE.format(q=5), trace(f"{million},0,0,0")),
        # sleep over the most rows that these ticks give, and work over them
        "replay-rows-200000": replay(ONE_EVENT, NODE.format(q=5), trace(*(f"{4 + i % 3},{i % 2},0,{i % 7}" for i in range(200000 // part)))),
        "replay-work-rows-200000": replay(WORK, NODE.format(q=5), trace(*(f"{4 + i % 3},{6 + i % 2},0,{i % 7}" for i in range(200000 // part)))),
        # events that each wake the board, periodic ones and the most rows of arrivals
        "replay-events-10000": replay(PERIODIC, NODE.format(q=5), rests),
        "replay-arrivals-100000": replay(
            "event e spacing 10 deadline 10 { }\n", NODE.format(q=15), trace(f"{million},2,0,0"), arrivals=[f"{10 * i},e,0" for i in range(100000 // part)]
        ),
        # the image of a long log, and the same log over a link with the most steps that a table may have
        "image-events-10000": image(replay(PERIODIC, NODE.format(q=5), rests)),
        # a saved image of a long log whose run has to be checked: that of events, with as much of the trace still to come, and one of a million steps
        "resume-events-5000": resume(replay(PERIODIC, NODE.format(q=5), rests), saved_events(5000 // part, 500000 // part)),
        "resume-outputs-300000": resume(replay(OUTPUTS, NODE.format(q=5), steady), saved_outputs(300000 // part)),
        "uplink-100000-steps": uplink(replay(PERIODIC, NODE.format(q=5), rests), 100000 // part),
        # a replay of the program's own files, in sizes that grow
        **{f"bench-{size}": ({}, ["bench", str(size // part)]) for size in (100, 200, 400, 800, 1665)},
    }


# Starts a program and tells its seconds, peak memory and status. It runs in a small process of its own, since a program's
# peak is never told below that of the process that started it.
STARTER = """
import os, sys, time
began = time.perf_counter()
child = os.posix_spawn(sys.argv[1], sys.argv[1:], os.environ, file_actions=[(os.POSIX_SPAWN_OPEN, 2, os.devnull, os.O_WRONLY, 0)])
_, code, usage = os.wait4(child, 0)
print(time.perf_counter() - began, usage.ru_maxrss, os.waitstatus_to_exitcode(code), file=sys.stderr)
"""


class Run:
    """A program's answer to words in a folder: its cost, as seconds or instructions, its peak memory, status and text."""

    def __init__(self, program, words, folder, repeats, is_count):
        seconds, self.peak = [], 0
        written = os.path.join(folder, "written")
        for _ in range(1 if is_count else repeats):
            with open(written, "wb") as out:
                starter = [sys.executable, "-I", "-S", "-c", STARTER, program, *words]
                told = subprocess.run(starter, cwd=folder, stdout=out, stderr=subprocess.PIPE, check=True).stderr.split()
            seconds.append(float(told[0]))
            self.peak = max(self.peak, int(told[1]))
            self.status = int(told[2])
        with open(written, "rb") as file:
            self.text = file.read()
        self.cost, self.unit = (instructions(program, words, folder), "instructions") if is_count else (statistics.median(seconds), "s")

    def line(self):
        cost = f"{self.cost:.4f}" if self.unit == "s" else f"{self.cost:.0f}"
        return f"{cost} {self.unit} {self.peak} KB status {self.status} bytes {len(self.text)}"


def instructions(program, words, folder):
    """How many instructions a run takes."""
    count = ["valgrind", "--tool=callgrind", "--callgrind-out-file=/dev/null", program, *words]
    told = subprocess.run(count, cwd=folder, stdout=subprocess.DEVNULL, stderr=subprocess.PIPE).stderr
    return float(re.search(rb"Collected : (\d+)", told).group(1))


def runs(programs, case, repeats, is_count):
    """The runs of some programs on a case."""
    files, words = case
    with tempfile.TemporaryDirectory() as folder:
        for file, text in files.items():
            with open(os.path.join(folder, file), "wb") as made:
                made.write(text if isinstance(text, bytes) else text.encode())
        return [Run(program, words, folder, repeats, is_count) for program in programs]


def named(names, known):
    """The cases of these names, a name that ends in '-' standing for all that begin so."""
    for name in names or known:
        if name.endswith("-"):
            yield from (case for case in known if case.startswith(name))
        else:
            yield name


def main():
    words = sys.argv[1:]
    other = None
    if "--beside" in words:
        place = words.index("--beside")
        other = words[place + 1]
        del words[place : place + 2]
    is_count, is_double = "--count" in words, "--double" in words
    words = [word for word in words if word not in ("--count", "--double")]
    if not words:
        sys.exit(__doc__)
    programs = [os.path.abspath(program) for program in [words[0], other] if program]
    repeats = int(words[1]) if len(words) > 1 else 5
    whole, half = cases(1), cases(2) if is_double else None
    for name in named(words[2:], whole):
        found = runs(programs, whole[name], repeats, is_count)
        halves = runs(programs, half[name], repeats, is_count) if half else []
        for place, run in enumerate(found):
            line = ("  beside " if place else f"{name} ") + run.line()
            if halves:
                line += f" {run.cost / halves[place].cost:.2f} times the half"
            if place:
                first = found[0]
                line += " alike" if (first.status, first.text) == (run.status, run.text) else " DIFFERENT"
                line += f" {first.cost / run.cost:.2f} times the {'seconds' if run.unit == 's' else run.unit} {first.peak / run.peak:.2f} times the memory"
            print(line, flush=True)


main()
