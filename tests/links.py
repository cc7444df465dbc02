#!/usr/bin/env python3
"""Sends the committed logs of some replays over random links: what comes of it must be what a model of the link says.

usage: tests/links.py PROGRAM [COUNT] [--beside OTHER] [--seed N] [--keep FOLDER]

The replays are fixed: a log with no record, one that is full, one of a node that loses power, one of six records and one
of some hundred. Each log is read from the program's own `replay`: so `uplink` has to send what `replay` reports, and ends
with its status. Each of COUNT cases (1000) is a random table of steps over one of these logs. The model below is the one
of docs/UPLINK.md, written from its rules alone; it says how many packets were sent, what the host holds and what is
acknowledged after the table, and how many rounds follow. In some tables a row is wrong: then its fault has to come. Tables
with one row less and one row more than there may be are tried once each.

With OTHER, a second program that answers the same words, status and bytes must be those of the other one too. Each case
that differs is printed, and kept in FOLDER. The last lines count the answers by status, the steps by name and how many
changed something, and say 'N passed, M failed'.
"""
import collections
import os
import random
import sys
import tempfile

import generate

MOST_WINDOW = 8
MOST_ROWS = 100000
MOST_NUMBER = 999999
STEPS = ("grow", "send", "again", "data", "ack", "restart")
UPLINK = ["uplink", *generate.REPLAY[1:], "link"]


class Link:
    """The sender, the host, and all that may still arrive. A record is its line."""

    def __init__(self, log):
        self.log, self.visible, self.base, self.next = log, 0, 0, 0
        self.window, self.packets, self.acknowledgements, self.host = [], [], [], []

    def grow(self, n):
        self.visible = min(self.visible + n, len(self.log))

    def send(self, _):
        if self.next < self.visible and len(self.window) < MOST_WINDOW:
            packet = self.next, self.log[self.next]
            self.packets.append(packet)
            self.window.append(packet)
            self.next += 1

    def again(self, n):
        if n < len(self.window):
            self.packets.append(self.window[n])

    def data(self, n):
        if n < len(self.packets):
            place, record = self.packets[n]
            if place == len(self.host):
                self.host.append(record)
            self.acknowledgements.append(len(self.host))

    def ack(self, n):
        if n < len(self.acknowledgements) and self.acknowledgements[n] > self.base:
            self.base = self.acknowledgements[n]
            self.next = max(self.next, self.base)
            self.window = [packet for packet in self.window if packet[0] >= self.base]

    def restart(self, _):
        self.base, self.next, self.window = 0, 0, []

    def step(self, name, n):
        getattr(self, name)(n)

    def state(self):
        """What a step may change. Lists of what was sent only grow, so their lengths tell."""
        return self.visible, self.base, self.next, len(self.window), len(self.packets), len(self.acknowledgements)

    def round(self):
        if self.window:
            self.again(0)
        else:
            self.send(0)
        self.data(len(self.packets) - 1)
        self.ack(len(self.acknowledgements) - 1)

    def text(self):
        """What is to be printed after the last step."""
        after = f"link {len(self.packets)} {len(self.host)} {self.base}"
        self.visible = len(self.log)
        rounds = 0
        while self.base < len(self.log):
            self.round()
            rounds += 1
        # what the page promises, here of the model
        assert self.host == self.log and rounds <= len(self.log)
        return "".join(line + "\n" for line in [after, f"rounds {rounds}", *self.host])


# Tables

def any_number(random, name, link):
    """The number of a step: mostly one that names something, and otherwise one just past it or anywhere."""
    if name in ("send", "restart"):
        return 0
    if random.random() < 0.03:
        return random.choice([random.randrange(MOST_NUMBER + 1), MOST_NUMBER])
    if name == "grow":
        return random.choice([0, 1, 1, 2, 3, 9, 40, MOST_NUMBER])
    there = {"again": link.window, "data": link.packets, "ack": link.acknowledgements}[name]
    if random.random() < 0.5:  # one of the last
        return max(0, len(there) - random.choice([0, 1, 1, 1, 2, 3, 8]))
    return random.randrange(len(there) + 1)


def any_steps(random, log, count):
    """Random steps over a log, the link that they lead to, and which of them changed something."""
    link, steps, changed = Link(log), [], collections.Counter()
    weights = [random.random() ** 2 + 0.01 for _ in STEPS]
    weights[-1] *= random.choice([0, 0.1, 0.5])  # a sender that always loses power gets nowhere
    for _ in range(count):
        name = random.choices(STEPS, weights)[0]
        n = any_number(random, name, link)
        before = link.state()
        link.step(name, n)
        steps.append((name, n))
        changed[name] += link.state() != before
    return steps, link, changed


def any_row(random, name, n):
    """A step as a row of the table, in one of its spellings."""
    number = random.choice([f"{n}"] * 12 + [f"{n:010}", f"0{n}", f'"{n}"', f"-{n}" if n == 0 else f"{n}"])
    return f"{random.choice([name] * 12 + [chr(34) + name + chr(34)])},{number}"


WRONG_ROWS = [
    *((row, "Fields") for row in ("grow", "grow,1,1", "send,0,", "drop")),
    *((row, "Number") for row in ("grow,", "grow,x", "drop,x", "ack,+1", "data,00000000001", "data, 1", "again,1.0", ",", "send,0x0", "restart,--0")),
    *((row, "Name") for row in ("drop,0", "Grow,1", "data ,1", "drop,1000000", "deliver,0", ",0", "acknowledge,-1")),
    *((row, "Range") for row in ("grow,1000000", "grow,-1", "send,1", "restart,1", "restart,-1", "ack,9999999999", "again,1000000", "data,-9")),
]
WRONG_HEADERS = ["", "step\n", "n,step\n", "step,n,\n", "step, n\n", "Step,n\n", "\ufeffstep,n\n"]


def any_table(random, rows):
    """The text of a table of rows, and its fault: none in most."""
    rows = list(rows)
    if random.random() < 0.02:
        return random.choice(WRONG_HEADERS) + "".join(row + "\n" for row in rows), (0, "Header")
    fault = None
    if random.random() < 0.15:
        for _ in range(random.choice([1, 1, 2])):
            place = random.randint(0, len(rows))
            row, kind = random.choice(WRONG_ROWS)
            rows.insert(place, row)
            # a row that comes before the first wrong one moves it down by one
            if fault is None or place < fault[0]:
                fault = place + 1, kind
    end = random.choice(["\n", "\n", "\n", "\r\n"])
    blank = end if random.random() < 0.05 else ""  # blank lines have no row number
    return end.join(["step,n", *rows]) + end + blank, fault


# Replays

COSTS = {"basic": (1, 1, 1), "memory": (1, 2, 2), "out": (1, 4, 4), "write": (1, 3, 3), "wake": (2, 5, 5)}
ONE_OUT = "int x = 0; event e spacing 100 deadline 50 { out 1, x; }"
MANY_OUTS = """int n = 0; int sum = 0;
task add { sum = sum + n; out 2, sum; }
event beat every 40 offset 3 deadline 40 { n = n + 1; out 1, payload; post add; }
event press spacing 80 deadline 80 { n = n - 7; out 0, n; }
"""
EXAMPLES = os.path.join(os.path.dirname(os.path.dirname(os.path.abspath(__file__))), "examples")


def example(name):
    with open(os.path.join(EXAMPLES, name)) as file:
        return file.read()


def replays():
    """The files of the fixed replays, by the name of the log."""
    def files(source, device, trace, arrivals=(), failures=()):
        tables = generate.trace(trace), generate.arrivals(arrivals), generate.failures(failures)
        return dict(zip(generate.REPLAY[1:], (source, device, *tables)))

    strong = {"cap": 2000, "start": 2000, "log": 1000, "p": 1, "q": 30}
    presses = [(tick, "press", 5) for tick in range(10, 4000, 70)]
    return {
        "empty": files("int x = 0;", generate.device({}, COSTS), [(30, 0, 0, 0)]),
        "full": files(ONE_OUT, generate.device({"log": 2}, COSTS), [(150, 1, 0, 0)], [(0, "e", 0), (100, "e", 0)]),
        "six": files(ONE_OUT, generate.device({}, COSTS), [(250, 1, 0, 0)], [(0, "e", 0), (99, "e", 0), (100, "e", 0), (200, "e", 0)]),
        "node": dict(zip(generate.REPLAY[1:], map(example, ("node.cat", "node.toml", "node-trace.csv", "node-arrivals.csv", "node-failures.csv")))),
        "hundreds": files(MANY_OUTS, generate.device(strong, COSTS), [(4000, 30, 0, -4)], presses, [(tick, "00") for tick in range(99, 4000, 311)]),
    }


def record(line):
    """The line of a committed record in `uplink`, by the one in a report: without the tick of arrival, and what follows the start."""
    words = line.split(" ")
    if words[0] == "out":
        return line
    name, index, version, _, started = words[1:6]
    return f"ran {name} {index} {version} {started}"


def log_of(report):
    """The committed records of a report, and the status that goes with it."""
    lines = report.text.decode().splitlines()
    return [record(line) for line in lines if line.split(" ")[0] in ("out", "ran")]


class Links:
    """The programs in a folder for each replay, and what they answered."""

    def __init__(self, programs, folder, kept):
        self.programs, self.kept = programs, kept
        self.statuses, self.changed, self.named = collections.Counter(), collections.Counter(), collections.Counter()
        self.passed = self.failed = 0
        self.logs = {}
        for name, files in replays().items():
            place = os.path.join(folder, name)
            os.makedirs(place)
            generate.write(place, files)
            report = generate.run(programs[0], generate.REPLAY, place)
            if report.status not in (0, 12):
                sys.exit(f"{name}: the replay answers {report.status}, {report.text[:200]!r}")
            self.logs[name] = place, files, log_of(report), report.status
            print(f"log {name}: {len(self.logs[name][2])} records, status {report.status}")

    def try_table(self, label, name, table, fault, text):
        """Sends a log by a table, and compares with the fault that has to come, or with the model's text."""
        place, files, _, status = self.logs[name]
        wanted = (status, text.encode()) if fault is None else (17, f"fault link {fault[0]} {fault[1]}\n".encode())
        generate.write(place, {"link": table})
        answers = [generate.run(program, UPLINK, place) for program in self.programs]
        self.statuses[answers[0].status] += 1
        if all(answer[:2] == wanted and not answer.errors for answer in answers):
            self.passed += 1
            return
        self.failed += 1
        print(f"{label}, log {name}: wanted {wanted[0]} {wanted[1][:120]!r}", flush=True)
        for answer in answers:
            print(f"  came {answer.status} {answer.text[:120]!r} {answer.errors[:120]!r}")
        if self.kept:
            generate.keep(self.kept, f"links-{self.failed}", {**files, "link": table}, UPLINK, answers)

    def case(self, random, label):
        name = random.choice(list(self.logs))
        steps, link, changed = any_steps(random, self.logs[name][2], random.choice([0, 1, 4, 15, 40, 40, 120, 400]))
        self.named.update(step for step, _ in steps)
        self.changed.update(changed)
        table, fault = any_table(random, [any_row(random, *step) for step in steps])
        self.try_table(label, name, table, fault, link.text())

    def at_the_limits(self, random):
        """As many rows as there may be, one more, and a row with a fault behind the last one; and a file that is too long."""
        steps, link, _ = any_steps(random, self.logs["hundreds"][2], MOST_ROWS)
        rows = [f"{name},{n}" for name, n in steps]
        text = link.text()
        for label, more, fault in (("most rows", [], None), ("a row too many", ["send,0"], "Many"), ("a wrong row too many", ["drop"], "Many")):
            self.try_table(label, "hundreds", generate.table("step,n", rows + more), fault and (MOST_ROWS + 1, fault), text)
        self.try_table("too long", "six", generate.table("step,n", ["send,0"]) + "\n" * 16777216, (0, "Long"), "")


def main():
    seed, programs, count, kept = generate.asked(sys.argv[1:], 1000, __doc__)
    with tempfile.TemporaryDirectory() as folder:
        links = Links(programs, folder, kept)
        links.at_the_limits(random.Random(f"{seed} limits"))
        for number in range(count):
            links.case(random.Random(f"{seed} {number}"), f"case {number}")
    for status, times in sorted(links.statuses.items(), key=str):
        print(f"status {status}: {times}")
    for name in STEPS:
        print(f"{name}: {links.named[name]} steps, {links.changed[name]} of them changed something")
    print(f"{links.passed} passed, {links.failed} failed")
    sys.exit(1 if links.failed else 0)


main()
