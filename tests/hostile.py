#!/usr/bin/env python3
"""Runs a built program on files that can't be read, outputs that fail, and files that mean no good.

usage: tests/hostile.py PROGRAM [--short] [--beside OTHER] [--seed N] [--rounds N] [--keep FOLDER]

Of every run it is checked that the status is one that README.md names for the command, that standard output holds one
fault line of it or a whole answer, that nothing is on standard error, and that it takes some seconds at most. And:

- where words have no form: status 2; where files can't be read: status 3, with the first of them in the order of the words;
- where standard output is closed, or full after any number of bytes: status 4 and a proper prefix of the text;
- where memory is refused, once at each place where it is asked for: status 13 and no byte, or the whole answer, by a small
  allocator in front of the system's (tests/refusing.c, for which a C compiler is needed; it is said where there is none);
- for files at both ends of a limit: the answer on each side;
- for mutations of the files of tests/rows, N rounds over all rows (60): what is said above.

With OTHER, a second program that answers the same words, status and bytes must be those of the other one. Cases that
fail are kept in FOLDER. With --short it takes some seconds. The last line is 'N passed, M failed'.
"""
import itertools
import os
import random
import re
import resource
import shutil
import signal
import struct
import subprocess
import sys
import tempfile

import generate

TOP = os.path.dirname(os.path.dirname(os.path.abspath(__file__)))
ROWS = os.path.join(TOP, "tests", "rows")
MOST_SECONDS = 5
SOURCE_LIMIT = 262144
FILE_LIMIT = 16777216

# What may be written

NAME = r"[A-Za-z_]\w{0,30}"
CHOSEN = rf"(?:version {NAME} \d units \d+ ticks \d+\n)*numbers lines \d+ checkpoint \d+ section \d+ reserve \d+ level \d+ window \d+\n"
CHOICES = rf"(?:{CHOSEN}|(?:forecast \d+ \d+ \d+\n{CHOSEN}){{1,64}})"
LIFE = rf"(?:dropped \d+ {NAME}\n)*(?:lost \d+\n|(?:boot|commit) \d+ \d+ \d+\n)*"
LOG = rf"(?:out \d+ -?\d+\n|ran {NAME} \d+ \d \d+ \d+ (?:%s)\n)*"
DONE = r"\d+ (?:met|late)"
REPORT = CHOICES + LIFE + LOG + rf"end \d+ \d+ \d+ %s\n(?:var {NAME}(?: -?\d+)+\n)*"
CONDITIONS = """BadNumber TooManyVars TooManyEvents TooManyTasks TooManyVersions Twice Unknown WrongType WhileInEvent RepeatInTask PayloadInTask
DeadlineTooLong DegradeTooOften StackTooDeep HandlerTooLong CodeTooLong""".split()
SOURCE_KINDS = ["TooLong", "BadByte", "IntTooLarge", "NameTooLong", "TooDeep", "Syntax", *CONDITIONS]
FAILING = r"F(?:1|2|3 \d+) \d+ \d+"
FAULTS = {
    2: "fault usage\n",
    3: r"fault read [1-6]\n",
    5: rf"fault source (?:{'|'.join(SOURCE_KINDS)}) \d+\n",
    6: r"fault device (?:long|syntax|extra|(?:key|range) [a-z]+(?:\.[a-z]+)?)\n",
    7: r"fault trace \d+ (?:Long|Header|Fields|Number|Range|Total)\n",
    8: r"fault arrivals \d+ (?:Long|Header|Many|Fields|Number|Range|Name|Order)\n",
    9: r"fault fails \d+ (?:Long|Header|Many|Fields|Number|Range|Fill|Order)\n",
    10: r"fault window (?:[1-9]\d? )?\d+\n",
    11: rf"fault rejected (?:[1-9]\d? )?{FAILING}\n",
    14: r"fault image (?:Head|Size|Tick|Stored|Slot|Steps|Place|Record|Done|Schedule|State) \d+\n",
    15: r"fault forecast \d+ (?:Long|Header|Few|Many|Fields|Number|Range|Order)\n",
    16: r"fault object (?:Form 0|(?:Operand|Region|Stack|Loop|Long) \d+)\n",
    17: r"fault link \d+ (?:Long|Header|Many|Fields|Number|Name|Range)\n",
}
TEXTS = {
    **{command: {0: r"(?:out \d+ -?\d+\n)*steps \d+\n"} for command in ("run", "runobject")},
    "list": {0: rf"(?:(?:task {NAME}|event {NAME} \d) \d+\n|\d+ [a-z]+(?: \d+)*\n)*"},
    "check": {0: CHOICES},
    "object": {0: r"(?s:CNO1.{8,})"},
    "plan": {0: rf"plan (?:none {FAILING}\n|\d+\n{CHOSEN}below (?:none|{FAILING})\n)"},
    "replay": {0: REPORT % (DONE, "trace"), 12: REPORT % (DONE, "log")},
    "resume": {0: REPORT % (f"{DONE}|- before", "trace"), 12: REPORT % (f"{DONE}|- before", "log")},
    "image": {status: r"(?s:CNI1.{8}\0\0\0\0.{64,})" for status in (0, 12)},
    "uplink": {status: rf"link \d+ \d+ \d+\nrounds \d+\n(?:out \d+ -?\d+\n|ran {NAME} \d+ \d \d+\n)*" for status in (0, 12)},
    "bench": {0: r"bench \d+\nticks \d+\nran \d+\nmet \d+\nlost \d+\ndropped \d+\nouts \d+\nend \d+ trace\n"},
}
REFUSED = {"run": (2, 3, 5), "list": (2, 3, 5), "object": (2, 3, 5), "check": (2, 3, 5, 6, 10, 11, 15), "plan": (2, 3, 5, 6, 10), "bench": (2,)}
REFUSED |= {"replay": (2, 3, 5, 6, 7, 8, 9, 10, 11, 15), "image": (2, 3, 5, 6, 7, 8, 9, 10, 11), "uplink": (2, 3, 5, 6, 7, 8, 9, 10, 11, 17)}
REFUSED |= {"resume": (2, 3, 5, 6, 7, 8, 9, 10, 11, 14), "runobject": (2, 3, 16)}
# the texts of each command by their statuses; words of no command have one
WHOLE = {None: {2: re.compile(FAULTS[2].encode())}}
for command, texts in TEXTS.items():
    texts |= {status: FAULTS[status] for status in REFUSED[command]}
    WHOLE[command] = {status: re.compile(text.encode()) for status, text in texts.items()}

# Small files that all commands take

with open(os.path.join(TOP, "examples", "node.cat"), "rb") as file:
    NODE = file.read()
FILES = {"source": NODE + b"start mean;\n"}
for name, example in (("device", "node.toml"), ("trace", "node-trace.csv"), ("arrivals", "node-arrivals.csv"), ("failures", "node-failures.csv")):
    with open(os.path.join(TOP, "examples", example), "rb") as file:
        FILES[name] = file.read()
FILES["link"] = b"step,n\ngrow,4\nsend,0\nsend,0\ndata,1\ndata,0\ndata,0\nack,1\nrestart,0\nack,0\nsend,0\ndata,1\n"
FILES["forecast"] = b"tick,p,q\n0,100,30\n300,100,25\n600,50,20\n"
FORMS = [["run", "source", "100"], ["list", "source"], ["check", "source", "device"], generate.REPLAY]
FORMS += [["object", "source"], ["plan", "source", "device"], ["image", *generate.REPLAY[1:]]]
RESUME, RUN_OBJECT = ["resume", *generate.REPLAY[1:], "saved"], ["runobject", "compiled", "100"]
CHECK_FORECAST, REPLAY_FORECAST = ["check", "source", "device", "forecast"], [*generate.REPLAY, "forecast"]
FORMS += [CHECK_FORECAST, REPLAY_FORECAST, RESUME, RUN_OBJECT, ["uplink", *generate.REPLAY[1:], "link"]]
# what the short form tries of each kind of file: all files of one command, and those that others read alone
SHORT = [(FORMS[-1], place) for place in range(1, 7)] + [(REPLAY_FORECAST, 6), (RESUME, 6), (RUN_OBJECT, 1)]


def short_or_all(short):
    """Forms with a place of a file in each."""
    return SHORT if short else [(words, place) for words in FORMS for place in places(words)]


def places(words):
    """The places of the words that name files."""
    return [place for place, word in enumerate(words) if word in FILES]


def put(words, place, name):
    return words[:place] + [name] + words[place + 1 :]


class Tests:
    """The runs of a program in a folder, each looked at, and a count of them."""

    def __init__(self, program, other, folder, kept):
        self.program, self.other, self.folder, self.kept = program, other, folder, kept
        self.passed = self.failed = 0
        self.slowest = (0, "")
        self.files = {}
        self.put(FILES)
        self.make_files()

    def put(self, files):
        """Puts files into the folder, beside those that are there."""
        generate.write(self.folder, files)
        self.files.update(files)

    def make_files(self):
        """Files that the program itself makes: an image, saved in the first part of the trace, and an object file."""
        rows = generate.rows_of(FILES["trace"].decode())
        self.put({"first": generate.trace(generate.cut(rows, 150)).encode()})
        made = {"saved": ["image", "source", "device", "first", "arrivals", "failures"], "compiled": ["object", "source"]}
        for name, words in made.items():
            answer = self.look(f"{words[0]} of the files here", words, 0)
            FILES[name] = answer.text
            self.put({name: answer.text})

    def tell(self, label, fault, words, answers):
        if fault is None:
            self.passed += 1
            return
        self.failed += 1
        print(f"{label}: {fault}", flush=True)
        if self.kept:
            generate.keep(self.kept, f"hostile-{self.failed}", self.files, words, answers)

    def look(self, label, words, wanted=None):
        """Runs the program on words. `wanted` is the status and text, or the status alone, where one is known."""
        answer = generate.run(self.program, words, self.folder)
        answers = [answer]
        self.slowest = max(self.slowest, (answer.seconds, label))
        fault = fault_of(words, answer)
        if fault is None and wanted is not None and wanted not in (answer.status, (answer.status, answer.text)):
            fault = f"wanted {wanted}, and it was {answer.status} {answer.text[:80]!r}"
        if fault is None and self.other:
            answers.append(generate.run(self.other, words, self.folder))
            if answers[1][:2] != answer[:2]:
                fault = f"status {answer.status} {answer.text[:80]!r}, and beside {answers[1].status} {answers[1].text[:80]!r}"
        self.tell(label, fault, words, answers)
        return answer

    def look_at_file(self, label, words, place, text, wanted=None):
        """Runs the program with another file in some place of the words."""
        self.put({"changed": text})
        return self.look(f"{words[0]}, {words[place]} {label}", put(words, place, "changed"), wanted)


def fault_of(words, answer):
    """What is wrong with an answer as such."""
    whole = WHOLE.get(words[0] if words else None, WHOLE[None])
    if answer.status is None or answer.seconds > MOST_SECONDS:
        return f"it took {answer.seconds:.1f} seconds"
    if answer.errors:
        return f"wrote to standard error: {answer.errors[:200]!r}"
    if answer.status not in whole:
        return f"status {answer.status}"
    if not whole[answer.status].fullmatch(answer.text):
        return f"status {answer.status}, and no whole text: {answer.text[:80]!r} .. {answer.text[-80:]!r}"
    return None


# Files that can't be read

def unreadable(tests, short):
    os.mkdir(os.path.join(tests.folder, "folder"))
    os.symlink("loop", os.path.join(tests.folder, "loop"))
    names = {"missing": "nothing", "a folder": "folder", "within a file": "source/within", "without a name": "", "named too long": "n" * 300, "a loop": "loop"}
    if os.geteuid() != 0:
        tests.put({"closed": b""})
        os.chmod(os.path.join(tests.folder, "closed"), 0)
        names["closed"] = "closed"
    tests.put({"bad": b"$"})
    for words in FORMS:
        for count in range(1, len(places(words)) + 1):
            for some in itertools.combinations(places(words), count):
                for label, name in names.items():
                    if short and count > 1 and name != "nothing":
                        continue
                    changed = words
                    for place in some:
                        changed = put(changed, place, name)
                    wanted = (3, b"fault read %d\n" % some[0])
                    tests.look(f"{words[0]}, words {some} {label}", changed, wanted)
                    # what is wrong with a file counts for nothing where another one can't be read
                    if some[0] != 1 and name == "nothing":
                        tests.look(f"{words[0]}, bad source, words {some} {label}", put(changed, 1, "bad"), wanted)


def odd_words(tests, short):
    """Words of no form, and files that come through a pipe."""
    lists = [[], [""], ["run"], ["run", "source"], ["run", "source", "1", "1"], ["Run", "source", "1"], ["run\n", "source", "1"], ["-h"], ["--version"]]
    lists += [RESUME[:-1], [*RESUME, "saved"], ["runobject", "compiled"], ["runobject", "compiled", "1000001"], ["runobject", "compiled", "1", "1"]]
    lists += [["list"], ["list", "source", "source"], ["check", "source"], [*CHECK_FORECAST, "source"], generate.REPLAY[:-1]]
    lists += [[*REPLAY_FORECAST, "source"], ["replay"] + [""] * 7]
    lists += [["x" * 100000], ["run"] * 10000, ["list", "\udcff"], ["\udcc3("]]
    for words in lists:
        tests.look(f"words {str(words)[:60]}", words, (2, b"fault usage\n"))
    for words in FORMS:
        for place in places(words):
            answers = [generate.run(tests.program, words, tests.folder)]
            reader, writer = os.pipe()
            os.write(writer, FILES[words[place]])
            os.close(writer)
            answers.append(generate.run(tests.program, put(words, place, "/dev/stdin"), tests.folder, stdin=reader))
            os.close(reader)
            fault = None if answers[0][:3] == answers[1][:3] else f"status {answers[1].status} {answers[1].text[:80]!r}"
            tests.tell(f"{words[0]}, {words[place]} through a pipe", fault, words, answers)


# Outputs that fail

def status_into(tests, words, output, before=None):
    """The status of a run with some standard output, and what it wrote to standard error."""
    answer = generate.run(tests.program, words, tests.folder, stdout=output, preexec_fn=before)
    return answer.status, answer.errors


def tell_cut(tests, label, words, text, told, written):
    """Looks at a run that could not write all of its text."""
    fault = None
    if told != (4, b""):
        fault = f"wanted status 4, and it was {told}"
    elif written is not None and not (text.startswith(written) and len(written) < len(text)):
        fault = f"no proper prefix of the text: {written[:80]!r}"
    tests.tell(label, fault, words, [])


def into_room(tests, words, text, room):
    """A file that takes some bytes and no more."""
    path = os.path.join(tests.folder, "output")

    def limit():
        signal.signal(signal.SIGXFSZ, signal.SIG_IGN)
        resource.setrlimit(resource.RLIMIT_FSIZE, (room, room))

    with open(path, "wb") as output:
        told = status_into(tests, words, output, limit)
    with open(path, "rb") as output:
        tell_cut(tests, f"{words}, room for {room} bytes", words, text, told, output.read())


def into_pipe(tests, words, text, count):
    """A pipe whose reader goes away after some bytes."""
    child = subprocess.Popen([tests.program, *words], cwd=tests.folder, stdin=subprocess.DEVNULL, stdout=subprocess.PIPE, stderr=subprocess.PIPE)
    written = child.stdout.read(count) if count else b""
    child.stdout.close()
    errors = child.stderr.read()
    tell_cut(tests, f"{words}, a reader of {count} bytes", words, text, (child.wait(), errors), written)


def full_outputs(tests, short):
    tests.put({"many": b"int i = 0; task t { while true { out 1, i; i = i + 1; } } start t;", "empty": b"", "bad": b"$"})
    for words in [*FORMS, ["list", "bad"], ["run", "nothing", "1"], ["help"], ["run", "many", "1000"]]:
        text = generate.run(tests.program, words, tests.folder).text
        step = len(text) // 12 + 1 if short else 1 + len(text) // 400
        for room in sorted({*range(0, len(text), step), 1, len(text) - 1}):
            into_room(tests, words, text, room)
        with open("/dev/full", "wb") as output:
            tell_cut(tests, f"{words} into /dev/full", words, text, status_into(tests, words, output), None)
        told = status_into(tests, words, subprocess.DEVNULL, lambda: os.close(1))
        tell_cut(tests, f"{words}, closed", words, text, told, None)
        reader, writer = os.pipe()
        os.close(reader)
        tell_cut(tests, f"{words}, a pipe with no reader", words, text, status_into(tests, words, writer), None)
        os.close(writer)
    # a text of no bytes is written whole anywhere
    with open("/dev/full", "wb") as output:
        told = status_into(tests, ["list", "empty"], output)
        tests.tell("a text of no bytes", None if told == (0, b"") else f"wanted status 0, and it was {told}", ["list", "empty"], [])
    words = ["run", "many", "1000000"]
    text = generate.run(tests.program, words, tests.folder).text
    for count in (0, 1, 10, 4095, 65536, 65537) + (() if short else (100000, 1000000, len(text) - 100000)):
        into_pipe(tests, words, text, count)


# Memory that is refused

REFUSING_ROWS = ["run-counts-once", "list-s1", "check-degrades", "replay-node", "bench-0"]

def compiled_allocator(folder):
    """An allocator that refuses one request, or nothing where it can't be compiled."""
    compiler = shutil.which("cc") or shutil.which("gcc") or shutil.which("clang")
    if compiler is None:
        return None
    path = os.path.join(folder, "refusing.so")
    source = os.path.join(TOP, "tests", "refusing.c")
    made = subprocess.run([compiler, "-O2", "-shared", "-fPIC", "-o", path, source], capture_output=True)
    return path if made.returncode == 0 else None


def refused_memory(tests, short):
    with tempfile.TemporaryDirectory() as folder:
        allocator = compiled_allocator(folder)
        if allocator is None:
            print("refused memory was not tried, for want of a C compiler")
            return
        told = os.path.join(folder, "requests")
        for words in [*FORMS, ["list", "bad"], ["help"]]:
            refuse_each(tests, words, tests.folder, allocator, told, short)
        for row in REFUSING_ROWS:
            with open(os.path.join(ROWS, row, "words")) as file:
                refuse_each(tests, file.read().splitlines(), os.path.join(ROWS, row), allocator, told, short)


def refuse_each(tests, words, folder, allocator, told, short):
    """Refuses each request for memory of a run in turn. In the short form some fifty of them, the first and the last ones among them."""
    def refusing(number):
        environment = {**os.environ, "LD_PRELOAD": allocator, "REFUSED": str(number), "REQUESTS": told}
        return generate.run(tests.program, words, folder, env=environment)

    whole = refusing(0)
    with open(told) as file:
        count = int(file.read())
    numbers = range(1, count + 1)
    if short:
        numbers = sorted({*numbers[:10], *numbers[-10:], *numbers[:: 1 + count // 30]})
    nothing = (13, b"", b"")
    for number in numbers:
        answer = refusing(number)
        fault = None if answer[:3] in (nothing, whole[:3]) else f"status {answer.status} {answer.text[:80]!r} {answer.errors[:80]!r}"
        tests.tell(f"{words}, request {number} of {count} refused", fault, words, [whole, answer])


# Hostile files

def damaged(plain):
    """What may be wrong with a file of any kind, by a name."""
    text = plain.decode("latin-1")
    yield "empty", b""
    yield "one NUL", b"\0"
    yield "NULs", b"\0" * 5000
    yield "all bytes", bytes(range(256)) * 3
    yield "random", random.Random(1).randbytes(3000)
    yield "byte order mark", b"\xef\xbb\xbf" + plain
    yield "byte order mark alone", b"\xef\xbb\xbf"
    yield "UTF-16", text.encode("utf-16")
    yield "UTF-16 without a mark", text.encode("utf-16-le")
    yield "cut UTF-8", plain + b"\xe2\x82"
    yield "overlong UTF-8", plain + b"\xc0\x80"
    yield "CRLF", plain.replace(b"\n", b"\r\n")
    yield "lone CR", plain.replace(b"\n", b"\r")
    yield "LF CR", plain.replace(b"\n", b"\n\r")
    yield "no line ends", plain.replace(b"\n", b"")
    yield "without the last line end", plain.rstrip(b"\n")
    yield "vertical tabs", plain.replace(b"\n", b"\v")
    yield "NUL before", b"\0" + plain
    yield "NUL behind", plain + b"\0"
    yield "NUL within", plain[: len(plain) // 2] + b"\0" + plain[len(plain) // 2 :]
    yield "twice", plain + plain
    yield "half", plain[: len(plain) // 2]
    yield "lines from the last", b"\n".join(reversed(plain.split(b"\n")))
    yield "blank", b" \t\r\n" * 1000
    yield "empty lines", b"\n" * 5000
    yield "upper case", plain.upper()
    yield "quote behind", plain + b'"'
    yield "quote before", b'"' + plain
    yield "all quoted", b'"' + plain + b'"'
    yield "comment without end", plain + b"//"
    yield "a line of 100,000 bytes", plain + b"x" * 100000
    yield "a thousand commas", plain + b"," * 1000
    yield "a backslash", plain + b"\\"
    yield "an escape", plain + b"\x1b[2J"


LONG = {
    "source": (5, b"fault source TooLong 262144\n"),
    "device": (6, b"fault device long\n"),
    "trace": (7, b"fault trace 0 Long\n"),
    "arrivals": (8, b"fault arrivals 0 Long\n"),
    "failures": (9, b"fault fails 0 Long\n"),
    "forecast": (15, b"fault forecast 0 Long\n"),
    "link": (17, b"fault link 0 Long\n"),
    "saved": (14, b"fault image Size %d\n" % (FILE_LIMIT + 1)),
    "compiled": (16, b"fault object Form 0\n"),
}
FILLERS = [b"x", b"\n", b'"', b"\0", b"{", b"[", b"(", b",", b" ", b"1", b"-", b"\xff", b"#", b"\r", b"a=1\n", b"[a]\n", b"1,0,0,0\n", b"\n\n1,2,3,4"]


def filled(start, filler, size):
    return (start + filler * ((size - len(start)) // len(filler) + 1))[:size]


def long_files(tests, short):
    """Files of the greatest length, and of one byte more, behind nothing, behind a good file and behind its first line."""
    for words, place in short_or_all(short):
        name = words[place]
        plain = FILES[name]
        starts = [plain] if short else [b"", plain, plain.split(b"\n")[0] + b"\n"]
        for filler in FILLERS[:2] if short else FILLERS:
            for start in starts:
                wanted = LONG[name] if name == "source" else None
                tests.look_at_file(f"of the most bytes with {filler}", words, place, filled(start, filler, FILE_LIMIT), wanted)
            tests.look_at_file(f"past the most bytes with {filler}", words, place, filled(plain, filler, FILE_LIMIT + 1), LONG[name])
        if name == "source" or not short:
            wanted = (14, b"fault image Head 0\n") if name == "saved" else LONG[name]
            tests.look(f"{words[0]}, {name} without end", put(words, place, "/dev/zero"), wanted)
    for size, wanted in ((SOURCE_LIMIT, (0, b"steps 0\n")), (SOURCE_LIMIT + 1, LONG["source"])):
        tests.look_at_file(f"of {size} bytes", FORMS[0], 1, b" " * size, wanted)


def nested_sources():
    """Sources with some number of brackets open at once, by a name."""
    for depth in (1, 16, 31, 32, 33, 34, 100, 10000):
        inner = depth - 1
        yield depth, "parentheses", "task t { out 1, " + "(" * inner + "1" + ")" * inner + "; } start t;"
        yield depth, "indexes", "int a[2]; task t { out 1, " + "a[" * inner + "0" + "]" * inner + "; } start t;"
        yield depth, "ifs", "task t { " + "if true { " * inner + "} " * depth + "start t;"
        yield depth, "whiles", "task t { " + "while false { " * inner + "} " * depth
        yield depth, "elses", "task t { " + "if false { } else { " * inner + "} " * depth + "start t;"
        yield depth, "repeats", "event e spacing 9 deadline 9 { " + "repeat 1 { " * inner + "} " * depth
        yield depth, "signs", "int x = 0; task t { out 1, " + "-(" * inner + "x" + ")" * inner + "; } start t;"


def first_too_deep(text):
    """The place of the first bracket with which more than 32 are open, or none."""
    depth = 0
    for place, letter in enumerate(text):
        depth += (letter in "([{") - (letter in ")]}")
        if depth > 32:
            return place
    return None


def sources(tests, short):
    run = FORMS[0]
    for depth, label, text in nested_sources():
        wanted = 0 if depth <= 32 else (5, b"fault source TooDeep %d\n" % first_too_deep(text))
        tests.look_at_file(f"with {label}, {depth} deep", run, 1, text.encode(), wanted)
        tests.look_at_file(f"with {label}, {depth} deep", FORMS[1], 1, text.encode(), wanted)
    # bounds on numbers: the source, its least and greatest number that is taken, the fault past them, and what is named as its place
    bounds = [
        ("int a[%d];", 1, 1024, "BadNumber", "int"),
        ("event e spacing %d deadline 1 { }", 1, 1000000, "BadNumber", "event"),
        ("event e every %d offset 0 deadline 1 { }", 1, 1000000, "BadNumber", "event"),
        ("event e every 9 offset %d deadline 1 { }", 0, 1000000, "BadNumber", "event"),
        ("event e spacing 1000000 deadline %d { }", 1, 1000000, "BadNumber", "event"),
        ("task t { out %d, 1; }", 0, 255, "BadNumber", "out"),
        ("event e spacing 9 deadline 9 { repeat %d { } }", 0, 1000, "BadNumber", "repeat"),
        ("event e spacing 9 deadline %d { }", 1, 9, "DeadlineTooLong", "event"),
        ("int x = %d;", 0, 2147483647, "IntTooLarge", "%d"),
        ("int x = -%d;", 0, 2147483647, "IntTooLarge", "%d"),
    ]
    for text, least, most, kind, named in bounds:
        refused = (5, b"fault source %s %d\n" % (kind.encode(), text.index(named)))
        for number in (0, 1, least, most, most + 1, 2147483647, 2147483648, 2**32, 2**64, 10**40):
            wanted = 0 if least <= number <= most else refused if number <= most + 1 and number >= least else 5
            tests.look_at_file(f"'{text}' with {number}", run, 1, (text % number).encode(), wanted)
    for size in (31, 32, 250000):
        wanted = 0 if size <= 31 else (5, b"fault source NameTooLong 4\n")
        tests.look_at_file(f"with a name of {size} bytes", run, 1, b"int " + b"n" * size + b" = 0;", wanted)
    # long and deep trees at the limit of length
    sums, brackets, truths = " + 1" * 60000, "(" * 30 + "x" + ")" * 30, " && b" * 50000
    shapes = [f"x = 1{sums};", f"x = {brackets};", "x=1;" * 60000, "if true { } else { }" * 13000, f"b = true{truths};"]
    for shape in shapes:
        tests.look_at_file(f"with {shape[:12]}..", FORMS[1], 1, b"int x = 0; bool b = true; task t { " + shape.encode() + b" }")
    items = ["start t;", "degrade e;", "int x = 0;", "event e spacing 9 deadline 9 { }", "task t { }", "int a[1024];", ";", "}", "else", "-", "||"]
    for item in items:
        for text in (item, "task t { } " + item, item * (SOURCE_LIMIT // len(item))):
            tests.look_at_file(f"of '{item}'", run, 1, text.encode())
    steps = ["0", "1", "0000000", "1000000", "1000001", "9999999", "00000001", "-1", "+1", " 1", "1 ", "", "1e3", "\u0661", "x" * 100000]
    for word in steps:
        wanted = 0 if re.fullmatch("[0-9]{1,7}", word) and int(word) <= 1000000 else 2
        tests.look(f"run with STEPS {word[:20]!r}", ["run", "source", word], wanted)


def devices(tests, short):
    words, place = FORMS[2], 2
    plain = FILES["device"].decode()
    plain = re.sub("(?m)#.*$", "", plain)
    start = {"cap": (1, 1000000), "start": (0, 250), "resume": (0, 250), "log": (1, 1000000), "p": (1, 1000000), "q": (0, 1000000)}
    costs = {f"{name}.{key}": (1, 1000) if key == "ticks" else (0, 1000000) for name in generate.CLASSES for key in ("ticks", "bound", "actual")}
    for key, (least, most) in (start | costs).items():
        table, _, last = key.rpartition(".")
        head, mark, rest = plain.partition(f"[{table}]") if table else ("", "", plain)
        others = ["1.0", "true", '"1"', "1979-05-27", "[1]", "{}", "0x1", "0o7", "1_0", "+1", "01", "nan"]
        for value in [least - 1, least, most, most + 1, -(2**63), 2**63 - 1, 2**63, *others]:
            changed = head + mark + re.sub(rf"(?m)^{last} = \d+", lambda _: f"{last} = {value}", rest, count=1)
            wanted = None
            if isinstance(value, int) and (key, value) != ("cap", 1):
                is_good = least <= value <= most
                wanted = (6, b"fault device syntax\n") if value > 2**63 - 1 else None if is_good else (6, b"fault device range %s\n" % key.encode())
            tests.look_at_file(f"with {key} {value}", words, place, changed.encode(), wanted)
    for depth in (1, 31, 32, 33, 79, 80, 81, 82, 127, 128, 129, 1000, 100000) + (() if short else (4000000,)):
        nests = {
            "arrays": "x = " + "[" * depth + "]" * depth,
            "open arrays": "x = " + "[" * depth,
            "inline tables": "x = " + "{x=" * depth + "1" + "}" * depth,
            "dotted keys": "x." * depth + "x = 1",
            "a dotted header": "[" + "x." * depth + "x]",
            "a header of arrays": "[[" + "x." * depth + "x]]",
        }
        for label, text in nests.items():
            tests.look_at_file(f"with {label} {depth} deep", words, place, (text + "\n" + plain).encode(), None if depth > 80 or "open" in label else 6)
    for digits in (0, 1, 2, 3, 126, 127, 128, 129, 130, 1000000):
        wanted = None if 2 <= digits <= 128 and digits % 2 == 0 else (6, b"fault device range fill\n")
        changed = plain.replace('fill = "00"', f'fill = "{"a" * digits}"')
        tests.look_at_file(f"with a fill of {digits} digits", words, place, changed.encode(), wanted)
    extras = ["x = 1", '"x" = 1', "x" * 1000000 + " = 1", "'' = 1", '"\\u0000" = 1', '"cap" = 1', "cap.x = 1", "basic = 1", "basic.ticks = 1"]
    for extra in [*extras, "[[basic]]", "cap = 1\ncap = 1"]:
        tests.look_at_file(f"with {extra[:20]}", words, place, (extra + "\n" + plain).encode())
        tests.look_at_file(f"with {extra[:20]} behind", words, place, (plain + "\n" + extra + "\n").encode())


TABLES = {
    "trace": (3, "ticks,harvest,extra,sample", "10,1,0,0", [(1, 1000000), (0, 1000000), (0, 1000000), (-(2**31), 2**31 - 1)], 7),
    "arrivals": (4, "tick,event,payload", "10,press,0", [(0, 999999), None, (-(2**31), 2**31 - 1)], 8),
    "failures": (5, "tick,fill", "10,00", [(0, 999999), None], 9),
    "forecast": (6, "tick,p,q", "0,100,30", [None, (1, 1000000), (0, 1000000)], 15),
}


def tables(tests, short):
    words = FORMS[3]
    for name, (place, header, row, ranges, status) in TABLES.items():
        kind = "fails" if name == "failures" else name
        form = REPLAY_FORECAST if name == "forecast" else words

        def look(label, text, wanted=None):
            tests.look_at_file(label, form, place, text.encode() if isinstance(text, str) else text, wanted)

        fields = row.split(",")
        for column, bounds in enumerate(ranges):
            values = ["", " 1", "1 ", "+1", "--1", "-", "1.0", "0x1", "1e1", "00000000001", "0000000001", "-0000000001", "-0", "\u0661", "1\0", "0" * 26]
            values.append("a" * 1000000)
            for value in values + ([bounds[0] - 1, bounds[0], bounds[1], bounds[1] + 1, 2**32, -(2**32), 2**63, 2**64] if bounds else []):
                wanted = None
                if isinstance(value, int):
                    is_number = len(str(abs(value))) <= 10
                    refused = b"fault %s 1 %s\n" % (kind.encode(), b"Range" if is_number else b"Number")
                    wanted = None if bounds[0] <= value <= bounds[1] else (status, refused)
                changed = ",".join(fields[:column] + [str(value)] + fields[column + 1 :])
                look(f"with {str(value)[:20]!r} in field {column}", f"{header}\n{changed}\n", wanted)
        quoted = ",".join(f'"{field}"' for field in fields)
        odd = [
            quoted, quoted + quoted, quoted.replace(",", "\n,"), f'"{row}"', f'"{row}', f'{row}"', f'{row},', f",{row}", f'""{row}', f'"""{row}"""',
            row.replace(",", ";"), row.replace(",", ", "), row.replace(",", '","'), row.replace(",", ',"'), row.replace(",", '"",'),
            f'"{fields[0]}\n",' + ",".join(fields[1:]),
            "," * 1000000, '"' * 999999, row + "\r", row + "\r\r\n" + row, row + "\0", "#" + row, "'" + row + "'", row + "\n\n\n" + row, "\n\n" + row, "\r\r" + row,
        ]
        for text in odd:
            heads = [header, header.upper(), ",".join(f'"{part}"' for part in header.split(",")), header + ",", " " + header, header.replace(",", "\n", 1)]
            for head in heads[: 1 if short else None]:
                look(f"with {head[:12]!r} and {text[:20]!r}", f"{head}\n{text}\n")
        look("of its header twice", f"{header}\n{header}\n", (status, b"fault %s 1 Number\n" % kind.encode()))
    for count in (100000, 100001):
        wanted = None if count == 100000 else (8, b"fault arrivals 100001 Many\n")
        tests.look_at_file(f"of {count} rows", words, 4, generate.arrivals(("0", "press", "0") for _ in range(count)).encode(), wanted)
        wanted = None if count == 100000 else (9, b"fault fails 100001 Many\n")
        tests.look_at_file(f"of {count} rows", words, 5, generate.failures((tick, "A5") for tick in range(count)).encode(), wanted)
        tests.look_at_file(f"of {count} rows", words, 3, generate.trace((1, tick % 2, 0, 0) for tick in range(count)).encode())
    if not short:
        for count in (1000000, 1000001):
            wanted = None if count == 1000000 else (7, b"fault trace 1000001 Total\n")
            tests.look_at_file(f"of {count} rows", words, 3, generate.trace((1, tick % 2, 0, 0) for tick in range(count)).encode(), wanted)


def images(tests, short):
    """Saved images whose head and length are at their limits, and the longest one that there may be."""
    plain = FILES["saved"]
    life = sum(row[0] for row in generate.rows_of(FILES["trace"].decode()))
    cap, log, start = (int(re.search(rf"(?m)^{key} = (\d+)", FILES["device"].decode())[1]) for key in ("cap", "log", "start"))
    steps = struct.unpack_from("<I", plain, 16 + 64 + 4 + (len(plain) - 80 - 16 * log) // 2 * (plain[16] % 2))[0]

    def look(label, text, wanted=None):
        refused = (14, b"fault image %s\n" % wanted.encode()) if isinstance(wanted, str) else wanted
        tests.look_at_file(label, RESUME, 6, text, refused)

    for tick in (0, steps - 1, life, life + 1, 2**31 - 1, 2**31, 2**32 - 1):
        wanted = f"Tick {tick}" if tick > life else f"Steps {steps}" if tick < steps else None
        look(f"of tick {tick}", plain[:4] + struct.pack("<I", tick) + plain[8:], wanted)
    for stored in (0, 1, cap, cap + 1, 2**31, 2**32 - 1):
        look(f"with {stored} units", plain[:8] + struct.pack("<I", stored) + plain[12:], f"Stored {stored}" if stored > cap else 0)
    for length in (*range(20), len(plain) - 1, len(plain) + 1, 2 * len(plain)):
        look(f"of {length} bytes", (plain + plain)[:length], "Head 0" if length < 4 else f"Size {length}")
    for place in range(16):
        changed = plain[:place] + bytes([plain[place] ^ 128]) + plain[place + 1 :]
        look(f"with another byte {place}", changed, "Head 0" if place < 4 else f"Size {len(plain)}" if place > 11 else None)
    for head in (b"CNI0", b"CNI2", b"cni1", b"CNO1", b"1INC"):
        look(f"that begins with {head}", head + plain[4:], "Head 0")
    numbers = [0, 1, 2, 255, 65535, 65536, 2**31 - 1, 2**31, 2**32 - 1]
    for place in range(16, len(plain) - 3, 64 if short else 4):
        for number in numbers[:: 4 if short else 1]:
            look(f"with {number} at {place}", plain[:place] + struct.pack("<I", number) + plain[place + 4 :])
    # the fresh image of a program with the most words, on a log of the most records; all but its length is right
    tests.put({"words": b"int a[1023]; int x = 0; task t { x = x + 1; } start t;", "long": re.sub(rb"(?m)^log = \d+", b"log = 1000000", FILES["device"]), "none": b"tick,event,payload\n"})
    lines = (12 + 4 * 1025 + 63) // 64
    slot = struct.pack("<III", 0, 0, 2**32 - 1) + bytes(4 * 1024) + struct.pack("<I", 1)
    whole = b"CNI1" + struct.pack("<III", 0, start, 0) + bytes(64) + slot.ljust(64 * lines, b"\0") + bytes(64 * lines + 16000000)
    for text, wanted in ((whole, 0), (whole[:-1], (14, b"fault image Size %d\n" % (len(whole) - 1)))):
        tests.put({"changed": text})
        tests.look(f"resume, an image of {len(text)} bytes", ["resume", "words", "long", "trace", "none", "failures", "changed"], wanted)


def instructions(*lines):
    """Instructions of an object file, each by its number, a, b and c."""
    return b"".join(struct.pack("<BBHI", *line) for line in lines)


def object_file(words=0, tasks=(), events=(), code=b"", count=None):
    """An object file with so many words; a task has its posts and its entry, an event the entries of its versions."""
    text = b"CNO1" + struct.pack("<HBBI", words, len(tasks), len(events), len(code) // 8 if count is None else count) + bytes(4 * words)
    text += b"".join(struct.pack("<HHI", posts, 0, entry) for posts, entry in tasks)
    for entries in events:
        text += bytes([len(entries), 0, 0, 0]) + b"".join(struct.pack("<I", entry) for entry in entries)
    return text + code


def objects(tests, short):
    """Object files at the limits of their counts, the longest code, and loops that don't end or are nested deep."""
    push, post, jump, jumpzero, turn, begin, end, out = 0, 26, 18, 19, 20, 21, 22, 27

    def look(label, text, wanted=None):
        refused = (16, b"fault object %s\n" % wanted.encode()) if isinstance(wanted, str) else wanted
        tests.look_at_file(label, RUN_OBJECT, 1, text, refused)

    nothing = (0, b"steps 0\n")
    for words in (0, 1024, 1025, 65535):
        look(f"with {words} words", object_file(words), nothing if words <= 1024 else "Form 0")
    for count in (16, 17, 255):
        tasks = object_file(tasks=[(0, 2 * task) for task in range(count)], code=b"".join(instructions((begin, task, 0, 0), (end, 0, 0, 0)) for task in range(count)))
        look(f"with {count} tasks", tasks, nothing if count <= 16 else "Form 0")
        events = object_file(events=[[event] for event in range(count)], code=instructions((end, 0, 0, 0)) * count)
        look(f"with {count} events", events, nothing if count <= 16 else "Form 0")
    for count in (0, 1, 4, 5, 255):
        look(f"with {count} versions", object_file(events=[range(count)], code=instructions((end, 0, 0, 0)) * count), nothing if 1 <= count <= 4 else "Form 0")
    for posts in (1, 65535):
        look(f"with {posts} posts", object_file(tasks=[(posts, 0)], code=instructions((begin, 0, 0, 0), (end, 0, 0, 0))), (0, b"steps %d\n" % min(100, 2 * posts)))
    for count in (59999, 60000, 60001):
        code = instructions((begin, 0, 0, 0)) + instructions((post, 0, 0, 0)) * (count - 2) + instructions((end, 0, 0, 0))
        look(f"of {count} instructions", object_file(tasks=[(1, 0)], code=code), (0, b"steps 100\n") if count <= 60000 else "Form 0")
    for count in (1, 60000, 60001, 2**31, 2**32 - 1):
        look(f"that says it has {count} instructions", object_file(count=count), "Form 0")
    for size in range(40):
        look(f"of {size} bytes", FILES["compiled"][:size], "Form 0")
    # jumps back over jumps alone, over evaluation alone, and to a test
    loop = [(begin, 0, 0, 0), (push, 0, 0, 1), (jumpzero, 0, 0, 4), (jump, 0, 0, 1), (end, 0, 0, 0)]
    look("of an endless task", object_file(tasks=[(1, 0)], code=instructions(*loop)), (0, b"steps 100\n"))
    look("of an endless section", object_file(tasks=[(1, 0)], code=instructions(*loop[:3], (jump, 0, 0, 3), loop[4])), "Loop 3")
    chain = [(begin, 0, 0, 0), (push, 0, 0, 1), (jumpzero, 0, 0, 4), (jump, 0, 0, 4), *((jump, 0, 0, place) for place in range(5, 59999)), (end, 0, 0, 0)]
    look("of a section of jumps", object_file(tasks=[(1, 0)], code=instructions(*chain)), (0, b"steps 3\n"))
    # turns within turns: each has its counter on the stack
    for depth in (1, 4, 32, 33):
        code = [line for level in range(depth) for line in ((push, 0, 0, 1), (turn, 0, 0, 3 * depth - level))]
        code += [(jump, 0, 0, 2 * level + 1) for level in reversed(range(depth))] + [(end, 0, 0, 0)]
        look(f"of {depth} turns within each other", object_file(events=[[0]], code=instructions(*code)), nothing if depth <= 32 and 4 * 2**depth < 1000000 else None)
    # pushes on and on, and the most outputs of a run
    deep = instructions((begin, 0, 0, 0)) + instructions((push, 0, 0, 1)) * 59997 + instructions((out, 1, 0, 0), (end, 0, 0, 0))
    look("that pushes on and on", object_file(tasks=[(1, 0)], code=deep), "Stack 34")
    tests.put({"changed": object_file(tasks=[(1, 0)], code=instructions((begin, 0, 0, 0), (push, 0, 0, 7), (out, 255, 0, 0), (push, 0, 0, 1), (jumpzero, 0, 0, 6), (jump, 0, 0, 1), (end, 0, 0, 0)))})
    answer = tests.look("runobject with a million steps", ["runobject", "changed", "1000000"], 0)
    tests.tell("a million steps", None if answer.text.endswith(b"steps 1000000\n") else f"{answer.text[-40:]!r}", ["runobject", "changed", "1000000"], [answer])
    for word in ("0", "0000000", "1000000", "1000001", "00000001", "-1", "+1", " 1", "1 ", "", "1e3", "\u0661"):
        wanted = 0 if re.fullmatch("[0-9]{1,7}", word) and int(word) <= 1000000 else (2, b"fault usage\n")
        tests.look(f"runobject with STEPS {word!r}", ["runobject", "compiled", word], wanted)


def hostile_files(tests, short):
    for words, place in short_or_all(short):
        for label, text in damaged(FILES[words[place]]):
            tests.look_at_file(label, words, place, text)
    for part in (long_files, sources, devices, tables, images, objects):
        part(tests, short)


# Mutations

NUMBERS = [b"0", b"1", b"2", b"7", b"255", b"256", b"999999", b"1000000", b"1000001", b"2147483647", b"2147483648", b"4294967295", b"9999999999", b"-1", b"-2147483648", b""]


def mutated(random, text):
    """A text with a few random edits: of bytes, lines, words and numbers."""
    for _ in range(random.choice([1, 1, 1, 2, 3])):
        place = random.randrange(len(text) + 1)
        end = min(len(text), place + random.choice([1, 1, 2, 5, 30]))
        lines = text.split(b"\n")
        line, other = random.randrange(len(lines)), random.randrange(len(lines))
        kind = random.randrange(11)
        if kind == 0:
            text = text[:place] + bytes(byte ^ 1 << random.randrange(8) for byte in text[place : place + 1]) + text[place + 1 :]
        elif kind == 1:
            text = text[:place] + random.randbytes(1) + text[place + 1 :]
        elif kind == 2:
            text = text[:place] + random.choice([b"\0", b"\n", b"\r", b'"', b",", b"{", b"}", b"-", b" ", b";", b"=", b"[", b"#", b"\xff"]) + text[place:]
        elif kind == 3:
            text = text[:place] + text[end:]
        elif kind == 4:
            text = text[:end] + text[place:]
        elif kind == 5:
            text = text[:place]
        elif kind == 6:
            text = b"\n".join(lines[:line] + lines[line + 1 :])
        elif kind == 7:
            text = b"\n".join(lines[: line + 1] + lines[line:])
        elif kind == 8:
            lines[line], lines[other] = lines[other], lines[line]
            text = b"\n".join(lines)
        else:
            pattern = rb"-?\d+" if kind == 9 else rb"\w+|[^\w\s]"
            found = list(re.finditer(pattern, text[:100000]))
            if found:
                piece = random.choice(found)
                new = random.choice(NUMBERS) if kind == 9 else random.choice(found).group()
                text = text[: piece.start()] + new + text[piece.end() :]
    return text


def files_of(row, short):
    """The files of a row of tests/rows, or none where they are too long to be tried often."""
    folder = os.path.join(ROWS, row)
    files = {}
    for name in sorted(os.listdir(folder)):
        path = os.path.join(folder, name)
        if name.endswith(".make"):
            if short:
                return None
            files[name[: -len(".make")]] = subprocess.run([sys.executable, path], capture_output=True, check=True).stdout
        elif name not in ("stdout", "status"):
            with open(path, "rb") as file:
                files[name] = file.read()
    return files if all(len(text) < 2000000 for text in files.values()) else None


def mutations(tests, seed, rounds, short):
    for row in sorted(os.listdir(ROWS)):
        files = files_of(row, short)
        if files is None:
            continue
        for name in list(tests.files):
            os.remove(os.path.join(tests.folder, name))
        tests.files = {}
        tests.put(files)
        # long files are slow to write
        for number in range(rounds if sum(map(len, files.values())) < 20000 else 1 + rounds // 10):
            source = random.Random(f"{seed} {row} {number}")
            changed = {name: mutated(source, files[name]) for name in source.sample(sorted(files), min(len(files), source.choice([1, 1, 1, 2])))}
            tests.put(changed)
            words = [word.decode(errors="surrogateescape") for word in tests.files["words"].replace(b"\0", b"").splitlines()]
            tests.look(f"row {row}, mutation {number} of {' '.join(changed)}", words)
            tests.put({name: files[name] for name in changed})


def main():
    words = sys.argv[1:]
    short = generate.flag(words, "--short")
    other = generate.option(words, "--beside")
    seed = generate.option(words, "--seed", "1")
    rounds = int(generate.option(words, "--rounds", "2" if short else "60"))
    kept = generate.option(words, "--keep")
    if len(words) != 1:
        sys.exit(__doc__)
    with tempfile.TemporaryDirectory() as folder:
        tests = Tests(os.path.abspath(words[0]), other and os.path.abspath(other), folder, kept and os.path.abspath(kept))
        unreadable(tests, short)
        odd_words(tests, short)
        full_outputs(tests, short)
        refused_memory(tests, short)
        hostile_files(tests, short)
        mutations(tests, seed, rounds, short)
    print(f"slowest {tests.slowest[0]:.1f} s: {tests.slowest[1]}")
    print(f"{tests.passed} passed, {tests.failed} failed")
    sys.exit(1 if tests.failed else 0)


main()
