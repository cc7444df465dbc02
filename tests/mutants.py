#!/usr/bin/env python3
"""Changes object files at random and runs them: each is run as it says, or refused with one of the documented faults.

usage: tests/mutants.py PROGRAM [COUNT] [--beside OTHER] [--seed N] [--keep FOLDER]

The files are those that the program's own `object` writes of the examples, of random sources and of random loops, and those of the rows of tests/rows. Each of COUNT
mutants (1000) has one to three changes: of a byte, of an instruction's number or field, of an instruction put in, taken out or
moved with its count kept, of an entry or a count. Looked at is that the answer is one that docs/OBJECTS.md names, with
nothing on standard error. Where an object is taken, a machine of the tests' own (tests/machine.py) has to print the same
outputs, and has to come through all of its handlers: it has no rule of its own, and breaks where an operand, a word or a
place isn't there. With OTHER, a second program that answers the same words, status and bytes must be those of the other
one. Each case that differs is printed, and kept in FOLDER. The last lines count the faults by their kinds, and say
'N passed, M failed'.
"""
import collections
import glob
import os
import random
import re
import struct
import sys
import tempfile

import generate
import machine

TOP = os.path.dirname(os.path.dirname(os.path.abspath(__file__)))
REFUSED = re.compile(rb"fault object (Form|Operand|Region|Stack|Loop|Long) (\d+)\n")
MOST_INSTRUCTIONS = 3000  # of a handler that are run here
JUMPS = [machine.NAMES.index(name) for name in ("jump", "jumpzero", "turn")]


def loops(random):
    """A source of loops beside and within each other, in a task and in an event."""
    def block(depth, loop):
        text = "{ "
        for _ in range(random.randint(0, 3)):
            kind = random.randrange(4) if depth else 0
            if kind == 0:
                text += random.choice(["x = x + 1; ", "out 1, x * 2; ", "a[x] = a[x + 1] - x; "])
            elif kind == 1:
                text += "if x < 5 " + block(depth - 1, loop) + random.choice(["", "else " + block(depth - 1, loop)])
            else:
                text += random.choice(loop) + block(depth - 1, loop)
        return text + "} "

    in_event = ["repeat %d " % number for number in (0, 1, 2, 3, 3, 30, 1000)]
    in_task = ["while x < 4 ", "while x != x ", "while true "]
    events = "".join(f"event e{k} spacing 9 deadline 9 {block(3, in_event)}" for k in range(2))
    return f"int x = 0; int a[3]; task t {block(3, in_task)}start t; " + events


def parts_of(file):
    """The places in a file of all counts and entries, and where its instructions begin."""
    words, tasks, events, _ = struct.unpack_from("<HBBI", file, 4)
    place, found = 12 + 4 * words, [4, 6, 7, 8]
    for _ in range(tasks):
        found += [place, place + 4]
        place += 8
    for _ in range(events):
        found += [place] + [place + 4 + 4 * k for k in range(file[place])]
        place += 4 + 4 * file[place]
    return found, place


def instruction(random, count, words):
    """Any instruction, mostly one whose fields are about right for so many instructions and words."""
    number = random.randrange(29 if random.random() < 0.05 else 28)
    fields, used = [0, 0, 0], machine.fields_of(machine.NAMES[number]) if number < 28 else []
    for field in used:
        fields[field] = random.choice([0, 0, 1, 2, random.randrange(256)])
    if 2 in used:
        near = words if machine.NAMES[number] not in ("jump", "jumpzero", "turn") else count
        fields[2] = random.choice([0, 1, random.randrange(near + 1), random.randrange(near + 1), 1000, 2**32 - 1])
    return struct.pack("<BBHI", number, *fields)


def mutated(random, file):
    """A file with a change."""
    counts, begin = parts_of(file)
    words, *_, count = struct.unpack_from("<HBBI", file, 4)
    code = [file[place : place + 8] for place in range(begin, len(file), 8)]
    kind = random.choices(range(10), [1, 1, 0.3, 3, 3, 4, 2, 4, 2, 2])[0]
    if kind == 0 or not code:
        place = random.randrange(len(file))
        return file[:place] + bytes([random.choice([file[place] ^ 1 << random.randrange(8), random.randrange(256)])]) + file[place + 1 :]
    if kind == 1:
        place = random.choice(counts)
        return file[:place] + bytes([(file[place] + random.choice([-1, 1])) % 256]) + file[place + 1 :]
    if kind == 2:
        return random.choice([file[:-1], file + b"\0", file[:-8], file[: random.randrange(len(file))]])
    at, other = random.randrange(len(code)), random.randrange(len(code))
    number, a, b, c = struct.unpack("<BBHI", code[at])
    if kind == 3:
        code[at] = instruction(random, count, words)
    elif kind == 4:  # another number with the same fields
        used = machine.fields_of(machine.NAMES[number]) if number < 28 else []
        code[at] = bytes([random.choice([k for k in range(28) if machine.fields_of(machine.NAMES[k]) == used])]) + code[at][1:]
    elif kind == 5:
        pushes = [place for place, one in enumerate(code) if one[0] == 0]
        if pushes and random.random() < 0.5:
            code[random.choice(pushes)] = struct.pack("<BBHI", 0, 0, 0, random.choice([0, 1, 999, 1000, 1001, 2**32 - 1]))
        else:
            code[at] = struct.pack("<BBHI", number, a, b, (c + random.choice([-1, 1, 1, 2, random.randrange(count)])) % 2**32)
    elif kind == 6:
        code[at], code[other] = code[other], code[at]
    elif kind == 7:  # one that jumps goes elsewhere
        jumping = [place for place, one in enumerate(code) if one[0] in JUMPS] or [at]
        at = random.choice(jumping)
        code[at] = code[at][:4] + struct.pack("<I", random.randrange(count))
    else:  # one is put in or taken out, and all entries and jumps behind it move along
        more = 1 if kind == 8 else -1
        code = [shifted(one, at, more) if one[0] in JUMPS else one for one in code]
        code[at:at] = [instruction(random, count + 1, words)] if more == 1 else []
        if more == -1:
            del code[at]
        head = bytearray(file[:begin])
        struct.pack_into("<I", head, 8, count + more)
        for place in counts[4:]:
            if place + 4 <= begin and is_entry(file, place):
                entry = struct.unpack_from("<I", head, place)[0]
                struct.pack_into("<I", head, place, max(0, entry + more) if entry > at else entry)
        return bytes(head) + b"".join(code)
    return file[:begin] + b"".join(code)


def shifted(one, at, more):
    place = struct.unpack_from("<I", one, 4)[0]
    return one[:4] + struct.pack("<I", max(0, place + more) if place > at else place)


def is_entry(file, place):
    """Whether one of the places that parts_of gives is that of an entry."""
    words, tasks, events, _ = struct.unpack_from("<HBBI", file, 4)
    at = 12 + 4 * words
    entries = {at + 8 * task + 4 for task in range(tasks)}
    at += 8 * tasks
    for _ in range(events):
        entries |= {at + 4 + 4 * version for version in range(file[at])}
        at += 4 + 4 * file[at]
    return place in entries


class Mutants:
    """The programs in a folder, and what came of each file."""

    def __init__(self, programs, folder, kept):
        self.programs, self.folder, self.kept = programs, folder, kept
        self.counts = collections.Counter()
        self.passed = self.failed = self.handlers = 0

    def look(self, random, label, file):
        generate.write(self.folder, {"mutant": file})
        steps = random.choice([0, 1, 7, 200, 200])
        words = ["runobject", "mutant", str(steps)]
        answers = [generate.run(program, words, self.folder) for program in self.programs]
        answer = answers[0]
        told, fault = REFUSED.fullmatch(answer.text), None
        if answer.errors or any(other[:3] != answer[:3] for other in answers):
            fault = f"status {[one.status for one in answers]}, {answer.errors[:80]!r}, {[one.text[:60] for one in answers]}"
        elif answer.status == 0:
            try:
                fault = self.fault_of_run(random, file, steps, answer.text)
            except (ArithmeticError, AssertionError, LookupError, struct.error) as error:
                fault = f"taken, and stuck: {error!r}"
        elif answer.status != 16 or not told or told[1] == b"Form" and told[2] != b"0":
            fault = f"status {answer.status}, {answer.text[:80]!r}"
        self.counts[told[1].decode() if told else f"status {answer.status}"] += 1
        self.passed += fault is None
        if fault:
            self.failed += 1
            print(f"{label}: {fault}", flush=True)
            if self.kept:
                generate.keep(self.kept, f"mutants-{self.failed}", {"mutant": file}, words, answers)

    def fault_of_run(self, random, file, steps, text):
        """What is wrong with what came of an object that is taken. It is an error where the machine here gets stuck."""
        made = machine.Object(file)
        state, lines, taken = machine.Machine(made.code, made.words, made.started), [], 0
        while taken < steps and state.section(lambda channel, value: lines.append(f"out {channel} {value}\n")):
            taken += 1
        lines.append(f"steps {taken}\n")
        if "".join(lines).encode() != text:
            return f"wanted {''.join(lines)[-80:]!r}, and it was {text[-80:]!r}"
        for event, versions in enumerate(made.code.versions):
            for version in range(len(versions)):
                self.handlers += state.handler(event, version, random.choice([0, 1, -1, 2**31 - 1]), lambda channel, value: None, MOST_INSTRUCTIONS)
        return None


def originals(mutants, random, count):
    """Objects of the rows, of the examples and of random sources."""
    rows = os.path.join(TOP, "tests", "rows")
    for row in sorted(os.listdir(rows)):
        for name in ("stdout", "object"):
            path = os.path.join(rows, row, name)
            if row.startswith(("object-", "runobject-")) and os.path.exists(path):
                with open(path, "rb") as file:
                    yield file.read()
    examples = sorted(glob.glob(os.path.join(TOP, "examples", "**", "*.cat"), recursive=True))
    for path in examples:
        yield generate.run(mutants.programs[0], ["object", path], mutants.folder).text
    for _ in range(count):
        generate.write(mutants.folder, {"source": random.choice([generate.any_source, loops, loops])(random)})
        yield generate.run(mutants.programs[0], ["object", "source"], mutants.folder).text


def main():
    seed, programs, count, kept = generate.asked(sys.argv[1:], 1000, __doc__)
    with tempfile.TemporaryDirectory() as folder:
        mutants = Mutants(programs, folder, kept)
        source = random.Random(f"{seed} files")
        files = []
        for file in originals(mutants, source, min(200, 10 + count // 50)):
            if file[:4] != b"CNO1" or len(file) < 12:
                continue
            mutants.look(source, f"file {len(files)}", file)
            if REFUSED.fullmatch(generate.run(programs[0], ["runobject", "mutant", "0"], folder).text) is None:
                files.append(file)
        for number in range(count):
            source = random.Random(f"{seed} {number}")
            file = source.choice(files)
            for _ in range(source.choice([1, 1, 1, 2, 3])):
                try:
                    file = mutated(source, file)
                except (struct.error, IndexError, ValueError):
                    break  # an earlier change has left no file that can be taken apart
            mutants.look(source, f"mutant {number}", file)
    for kind, times in sorted(mutants.counts.items()):
        print(f"{kind}: {times}")
    print(f"{mutants.handlers} handlers run to their end")
    print(f"{mutants.passed} passed, {mutants.failed} failed")
    sys.exit(1 if mutants.failed else 0)


main()
