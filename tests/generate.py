"""What the tests of a whole program share: runs of it, random inputs, and reports taken apart.

A random input comes from a `random.Random`, so a seed names it. Sources follow docs/LANGUAGE.md, and profiles and
tables docs/FILES.md.
"""
import collections
import os
import re
import subprocess
import sys

SECONDS = 120
CLASSES = ("basic", "memory", "out", "write", "wake")
REPLAY = ["replay", "source", "device", "trace", "arrivals", "failures"]

Answer = collections.namedtuple("Answer", "status text errors seconds")


# Runs

def run(program, words, folder, **more):
    """The answer of a program to words, in a folder, with the seconds that it took of a processor. Its status is below 0 for a signal,
    and None where it was stopped for taking too long."""
    began = processor_seconds()
    settings = {"stdin": subprocess.DEVNULL, "stdout": subprocess.PIPE, "stderr": subprocess.PIPE, "timeout": SECONDS, **more}
    try:
        done = subprocess.run([program, *words], cwd=folder, **settings)
        status, text, errors = done.returncode, done.stdout, done.stderr
    except subprocess.TimeoutExpired:
        status, text, errors = None, b"", b""
    return Answer(status, text, errors, processor_seconds() - began)


def processor_seconds():
    """What all runs so far took, whatever else the machine does."""
    return os.times().children_user + os.times().children_system


def write(folder, files):
    """Makes files, by their names, in a folder."""
    for name, text in files.items():
        with open(os.path.join(folder, name), "wb") as file:
            file.write(text if isinstance(text, bytes) else text.encode())


def keep(folder, name, files, words, answers):
    """Keeps a case as a folder of its own: its files, its words, one a line, and what each program answered."""
    place = os.path.join(folder, name)
    os.makedirs(place, exist_ok=True)
    write(place, files)
    write(place, {"words": "".join(word + "\n" for word in words).encode(errors="surrogateescape")})
    for number, answer in enumerate(answers):
        write(place, {f"answer{number}": b"status %s\n" % str(answer.status).encode() + answer.text + answer.errors})


def option(words, name, without=None):
    """Takes an option with its value out of the words, and gives the value."""
    if name not in words:
        return without
    place = words.index(name)
    value = words[place + 1]
    del words[place : place + 2]
    return value


def asked(words, usual, usage):
    """Returns what a test of one program, or of one beside another, is asked: its seed, the programs, its number and the
    folder in which it keeps what differs, if any."""
    seed, other, kept = option(words, "--seed", "1"), option(words, "--beside"), option(words, "--keep")
    if len(words) not in (1, 2):
        sys.exit(usage)
    number = int(words[1]) if len(words) > 1 else usual
    return seed, [os.path.abspath(program) for program in (words[0], other) if program], number, kept and os.path.abspath(kept)


def flag(words, name):
    """Takes an option without a value out of the words, and says whether it was there."""
    if name not in words:
        return False
    words.remove(name)
    return True


# Profiles and tables

def device(top, costs):
    """A profile: the keys at the top, and for each class its ticks, bound and actual units."""
    keys = {"cap": 100, "start": 100, "resume": 0, "log": 100, "p": 10, "q": 3, **top}
    lines = [f"{key} = {value}" for key, value in keys.items() if key != "fill"]
    lines.append(f'fill = "{keys.get("fill", "00")}"')
    for name in CLASSES:
        ticks, bound, actual = costs[name]
        lines += [f"[{name}]", f"ticks = {ticks}", f"bound = {bound}", f"actual = {actual}"]
    return "\n".join(lines) + "\n"


def table(header, rows):
    return "".join(line + "\n" for line in [header, *rows])


def trace(rows):
    return table("ticks,harvest,extra,sample", (",".join(map(str, row)) for row in rows))


def arrivals(rows):
    return table("tick,event,payload", (",".join(map(str, row)) for row in rows))


def failures(rows):
    return table("tick,fill", (",".join(map(str, row)) for row in rows))


def forecast(rows):
    return table("tick,p,q", (",".join(map(str, row)) for row in rows))


def rows_of(text):
    """The rows of a plain table, numbers as such."""
    rows = [line.split(",") for line in text.split("\n")[1:] if line]
    return [[int(field) if re.fullmatch(r"-?\d+", field) else field for field in row] for row in rows]


def cut(rows, ticks):
    """The rows of a trace up to a tick."""
    found = []
    for row in rows:
        if ticks > 0:
            found.append([min(row[0], ticks), *row[1:]])
            ticks -= row[0]
    return found


def fill(random):
    """A fill: a byte of an even or odd gate, an entry's spelling, or any bytes."""
    kind = random.randrange(4)
    if kind == 0:
        return random.choice(["00", "01", "A5", "FF", "ff00", "0100"])
    if kind == 1:
        return bytes([random.choice([1, 2]), random.randrange(3), 0, 0, random.randrange(9), 0, 0, 0] + [0] * 8).hex()
    return random.randbytes(random.choice([1, 2, 3, 16, 63, 64])).hex()


# Sources

class Source:
    """A random source. It meets all conditions but for rare chances, as of a handler that is too long."""

    def __init__(self, random, tasks=2, events=3, versions=3, depth=3, length=4, reach=2, clock=60):
        """At most so many tasks, events and versions of an event; lists at most so deep and long; expressions at most so deep.
        Spacings are multiples of `clock`."""
        self.random, self.depth, self.length, self.reach = random, depth, length, reach
        self.ints = [f"i{k}" for k in range(random.randint(1, 4))]
        self.bools = [f"b{k}" for k in range(random.randint(0, 2))]
        self.arrays = [f"a{k}" for k in range(random.randint(0, 2))]
        self.tasks = [f"t{k}" for k in range(random.randint(0, tasks))]
        self.events = [f"e{k}" for k in range(random.randint(0, events))]
        self.in_event = False
        items = [f"int {name} = {random.choice(['', '-'])}{self.number()};" for name in self.ints]
        items += [f"bool {name} = {random.choice(['true', 'false'])};" for name in self.bools]
        items += [f"int {name}[{random.choice([1, 2, 3, 5, 8, 20])}];" for name in self.arrays]
        items += [f"task {name} {self.block(depth)}" for name in self.tasks]
        counts = [random.randint(1, versions) for _ in self.events]
        items += [self.event(name, count, clock) for name, count in zip(self.events, counts)]
        items += [f"start {random.choice(self.tasks)};" for _ in range(random.randint(0, 3)) if self.tasks]
        mentions = [name for name, count in zip(self.events, counts) for _ in range(random.randint(0, count - 1))]
        random.shuffle(mentions)
        while mentions:
            count = random.randint(1, len(mentions))
            items.append("degrade " + ", ".join(mentions[:count]) + ";")
            mentions = mentions[count:]
        if random.random() < 0.2:
            random.shuffle(items)
        self.text = "\n".join(items) + "\n"

    def event(self, name, count, clock):
        spacing = clock * self.random.choice([1, 2, 2, 3, 4, 4, 6, 6])
        deadline = self.random.choice([spacing, spacing, self.random.randint(max(1, spacing // 3), spacing)])
        timing = f"spacing {spacing}"
        if self.random.random() < 0.4:
            timing = f"every {spacing} offset {self.random.choice([0, 1, self.random.randrange(2 * spacing)])}"
        self.in_event = True
        lists = [self.block(max(0, self.depth - 1 - k), max(0, self.length - k)) for k in range(count)]
        self.in_event = False
        return f"event {name} {timing} deadline {deadline} " + " else ".join(lists)

    def block(self, depth, length=None):
        most = self.length if length is None else length
        return "{ " + "".join(self.statement(depth) + " " for _ in range(self.random.randint(0, most))) + "}"

    def statement(self, depth):
        kinds = ["set", "set", "set", "out", "out"]
        kinds += ["bool"] * bool(self.bools) + ["element"] * bool(self.arrays) + ["post"] * bool(self.tasks)
        if depth > 0:
            kinds += ["if", "loop"]
        kind = self.random.choice(kinds)
        if kind == "set":
            return f"{self.random.choice(self.ints)} = {self.sum(self.reach)};"
        if kind == "bool":
            return f"{self.random.choice(self.bools)} = {self.both(self.reach)};"
        if kind == "element":
            return f"{self.random.choice(self.arrays)}[{self.sum(self.reach - 1)}] = {self.sum(self.reach)};"
        if kind == "out":
            return f"out {self.random.choice([0, 1, 2, 255])}, {self.sum(self.reach)};"
        if kind == "post":
            return f"post {self.random.choice(self.tasks)};"
        if kind == "if":
            other = f" else {self.block(depth - 1)}" if self.random.random() < 0.5 else ""
            return f"if {self.both(self.reach)} {self.block(depth - 1)}{other}"
        if self.in_event:
            return f"repeat {self.random.choice([0, 1, 2, 2, 3])} {self.block(depth - 1, 2)}"
        if self.random.random() < 0.7:
            name = self.random.choice(self.ints)
            body = self.block(depth - 1)[:-1]
            return f"{name} = 0; while {name} < {self.random.randint(1, 6)} {body}{name} = {name} + 1; }}"
        return f"while {self.both(self.reach)} {self.block(depth - 1)}"

    def number(self):
        return self.random.choice([0, 1, 2, 3, 7, self.random.randrange(100), self.random.randrange(2**31), 2**31 - 1])

    def joined(self, parts, operators, most):
        """A chain of one to `most` parts."""
        text = parts()
        for _ in range(self.random.choice([0, 0, 1, most - 1])):
            text += f" {self.random.choice(operators)} {parts()}"
        return text

    def sum(self, depth):
        return self.joined(lambda: self.joined(lambda: self.operand(depth), "*/%", 2), "+-", 3)

    def operand(self, depth):
        sign = "-" if self.random.random() < 0.15 else ""
        kinds = ["number", "name", "name"] + ["element"] * bool(self.arrays and depth > 0) + ["brackets"] * (depth > 0)
        kind = self.random.choice(kinds + ["payload"] * self.in_event)
        if kind == "number":
            return f"{sign}{self.number()}"
        if kind == "name":
            return sign + self.random.choice(self.ints)
        if kind == "payload":
            return sign + "payload"
        if kind == "element":
            return f"{sign}{self.random.choice(self.arrays)}[{self.sum(depth - 1)}]"
        return f"{sign}({self.sum(depth - 1)})"

    def both(self, depth):
        return self.joined(lambda: self.joined(lambda: self.compare(depth), ["&&"], 2), ["||"], 2)

    def compare(self, depth):
        if depth > 0 and self.random.random() < 0.6:
            return f"{self.sum(depth - 1)} {self.random.choice(['==', '!=', '<', '<=', '>', '>='])} {self.sum(depth - 1)}"
        other = f" {self.random.choice(['==', '!='])} {self.truth(depth)}" if self.random.random() < 0.3 else ""
        return self.truth(depth) + other

    def truth(self, depth):
        sign = "!" if self.random.random() < 0.3 else ""
        if depth > 0 and self.random.random() < 0.3:
            return f"{sign}({self.both(depth - 1)})"
        return sign + self.random.choice(["true", "false", *self.bools, *self.bools])


# Events and arrivals

Event = collections.namedtuple("Event", "name is_periodic spacing offset deadline")
HEADER = re.compile(r"\bevent\s+(\w+)\s+(?:every\s+(\d+)\s+offset\s+(\d+)|spacing\s+(\d+))\s+deadline\s+(\d+)")


def events_of(source):
    """The events of a source, in order."""
    return [Event(name, bool(period), int(period or spacing), int(offset or 0), int(deadline)) for name, period, offset, spacing, deadline in HEADER.findall(source)]


def kept(event, rows, trace):
    """The arrivals of an event before the end of a trace, as ticks with payloads, without those that are dropped.
    The rows are those of the two tables."""
    if event.is_periodic:
        samples = [sample for ticks, _, _, sample in trace for _ in range(ticks)]
        return [(tick, samples[tick]) for tick in range(event.offset, len(samples), event.spacing)]
    life, found = sum(row[0] for row in trace), []
    for tick, name, payload in rows:
        if name == event.name and tick < life and (not found or tick >= found[-1][0] + event.spacing):
            found.append((tick, payload))
    return found


# Whole cases

SHAPES = [
    {},
    {"tasks": 1, "events": 0},
    {"tasks": 0, "events": 4, "depth": 1, "length": 2, "reach": 1},
    {"tasks": 2, "events": 2, "depth": 2, "length": 2, "reach": 1},
    {"tasks": 2, "events": 2, "depth": 2, "length": 2, "reach": 1},
    {"tasks": 3, "events": 5, "versions": 4, "depth": 1, "length": 3, "reach": 1},
    {"tasks": 1, "events": 16, "versions": 1, "depth": 0, "length": 1, "reach": 0},
    {"tasks": 16, "events": 1, "depth": 1, "length": 2, "reach": 0},
]


def any_source(random):
    clock = random.choice([30, 60, 100, 250, 997])
    return Source(random, clock=clock, **random.choice(SHAPES)).text


def any_device(random):
    """A profile: mostly one with room for everything, else one that is short of something."""
    costs = {}
    for name in CLASSES:
        bound = random.choice([0, 1, 1, 2, 3, 5, 9])
        actual = random.choice([bound, bound, bound, random.randint(0, bound), bound + random.randint(1, 3)])
        costs[name] = (random.choice([1, 1, 1, 1, 2, 3]), bound, actual)
    cap = random.choice([30, 60, 100, 200, 500, 2000, 2000, 2000, 1000000])
    top = {
        "cap": cap,
        "start": random.choice([0, cap, cap, random.randint(0, cap)]),
        "resume": random.choice([0, 0, 0, random.randint(0, cap), cap]),
        "log": random.choice([1, 2, 3, 10, 40, 500, 500, 500]),
        "p": random.choice([1, 5, 10, 30, 50, 100]),
        "q": random.choice([0, 1, 5, 30, 100, 300, 1000]),
        "fill": fill(random),
    }
    return device(top, costs)


def any_trace(random):
    """Rows of some hundred ticks, or of some thousand: even, in bursts, dark or at random."""
    rows, left = [], random.choice([0, 1, 50, 400, 400, 1500, 1500, 6000])
    kind = random.choice(["even", "bursts", "dark", "random", "random"])
    while left > 0:
        ticks = min(left, random.choice([1, 1, 2, 5, 20, 100, 400]))
        harvest = {"even": 3, "bursts": random.choice([0, 0, 0, 200]), "dark": 0, "random": random.choice([0, 0, 1, 2, 5, 30])}[kind]
        extra = random.choice([0, 0, 0, 0, 1, 2, 10])
        rows.append((ticks, harvest, extra, random.choice([0, 5, -7, random.randint(-(2**31), 2**31 - 1)])))
        left -= ticks
    return trace(rows)


def any_arrivals(random, text):
    names = [event.name for event in events_of(text) if not event.is_periodic]
    ticks = sorted(random.choice([0, random.randrange(100), random.randrange(1500), random.randrange(8000)]) for _ in range(random.choice([0, 2, 10, 40])))
    if random.random() < 0.03:
        random.shuffle(ticks)
    rows = [(tick, random.choice(names), random.choice([0, 1, random.randint(-(2**31), 2**31 - 1)])) for tick in ticks if names]
    return arrivals(rows)


def any_forecast(random, text):
    """A forecast by a profile: most rows promise about as much as the profile does, and few of them fault."""
    p, q = (int(re.search(rf"(?m)^{key} = (\d+)", text)[1]) for key in ("p", "q"))
    ticks = [0] + sorted(random.sample(range(1, random.choice([10, 300, 2000])), random.choice([0, 1, 1, 2, 5])))
    if random.random() < 0.03:
        ticks[0] = random.choice([1, 5])
    rows = []
    for tick in ticks:
        times, more = random.choice([1, 1, 2, 3]), random.choice([0, 0, 1, 5, 100])
        rows.append((tick, p * times, random.choice([q * times, q * times + more, max(0, q * times - more)])))
    return forecast(rows)


def any_failures(random, ticks):
    """Failures in these ticks, each with a fill of its own."""
    return failures((tick, fill(random)) for tick in sorted(set(ticks)) if 0 <= tick < 1000000)


def failing_ticks(random, marks):
    """Ticks in which to fail: none, some, many, long rows, and those around the writes and wakes that a report tells of."""
    yield "no", []
    for share in (0.005, 0.05, 0.4):
        yield f"{share} of all", [tick for tick in range(random.choice([300, 2000])) if random.random() < share]
    begin = random.randrange(300)
    yield "a row of", range(begin, begin + random.choice([5, 50, 300]))
    for mark in random.sample(marks, min(3, len(marks))):
        for back in range(1, 1 + random.choice([2, 6])):
            yield f"a tick {back} before {mark.kind} {mark.tick}, then", [mark.tick - back]
    yield "the ends of all writes in", [mark.tick - random.choice([1, 1, 2, 3]) for mark in marks if random.random() < 0.7]


# Reports

Version = collections.namedtuple("Version", "version units ticks")
Mark = collections.namedtuple("Mark", "kind tick records steps")
Out = collections.namedtuple("Out", "channel value")
Ran = collections.namedtuple("Ran", "name index version arrived started done word")
End = collections.namedtuple("End", "tick stored steps why")


class Report:
    """The lines of a report, of `check` or of `replay`, by their kinds. With a forecast the versions and numbers are the last row's."""

    def __init__(self, text):
        self.versions, self.numbers, self.dropped, self.marks, self.log, self.end, self.vars = {}, {}, [], [], [], None, {}
        self.forecast = []
        for line in text.decode().splitlines():
            kind, *words = line.split(" ")
            if kind == "forecast":
                self.forecast.append(tuple(map(int, words)))
            elif kind == "version":
                self.versions[words[0]] = Version(int(words[1]), int(words[3]), int(words[5]))
            elif kind == "numbers":
                self.numbers = {name: int(value) for name, value in zip(words[::2], words[1::2])}
            elif kind == "dropped":
                self.dropped.append((int(words[0]), words[1]))
            elif kind == "lost":
                self.marks.append(Mark(kind, int(words[0]), None, None))
            elif kind in ("boot", "commit"):
                self.marks.append(Mark(kind, *map(int, words)))
            elif kind == "out":
                self.log.append(Out(*map(int, words)))
            elif kind == "ran":
                done = None if words[5] == "-" else int(words[5])  # what ran before a saved image
                self.log.append(Ran(words[0], *map(int, words[1:5]), done, words[6]))
            elif kind == "end":
                self.end = End(*map(int, words[:3]), words[3])
            elif kind == "var":
                self.vars[words[0]] = [int(value) for value in words[1:]]
            else:
                raise ValueError(f"no line of a report: {line}")

    def outs(self):
        return [entry for entry in self.log if isinstance(entry, Out)]

    def ran(self):
        return [entry for entry in self.log if isinstance(entry, Ran)]
