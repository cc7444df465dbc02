"""A machine that runs code, by docs/MACHINE.md alone. The code is that of a listing or of an object file (docs/OBJECTS.md).

It asks for nothing that a verifier would have to look at: an operand, word or place that isn't there is an error of Python.
"""
import collections
import operator
import struct

import interpret

Instruction = collections.namedtuple("Instruction", "name numbers")
Code = collections.namedtuple("Code", "instructions tasks versions")

NAMES = """push load payload neg not add sub mul div rem eq ne lt le gt ge and or jump jumpzero turn begin end loadat store storeat
post out""".split()
ACTS = {"jumpzero", "begin", "end", "store", "storeat", "post", "out"}
JUMPS = {"jump", "jumpzero", "turn"}
OPERATORS = {
    "add": lambda a, b: interpret.wrap(a + b),
    "sub": lambda a, b: interpret.wrap(a - b),
    "mul": lambda a, b: interpret.wrap(a * b),
    "div": interpret.quotient,
    "rem": interpret.rest,
    "and": lambda a, b: a != 0 and b != 0,
    "or": lambda a, b: a != 0 or b != 0,
    **{name: getattr(operator, name) for name in ("eq", "ne", "lt", "le", "gt", "ge")},
}


def listed(text):
    """The code of a listing."""
    code = Code([], [], [])
    for line in text.decode().splitlines():
        head, *words = line.split(" ")
        if head == "task":
            code.tasks.append(int(words[1]))
        elif head == "event":
            if words[1] == "0":
                code.versions.append([])
            code.versions[-1].append(int(words[2]))
        else:
            code.instructions.append(Instruction(words[0], [int(number) for number in words[1:]]))
    return code


def fields_of(name):
    """Which of the fields a, b and c of an instruction hold its numbers, in the order of a listing."""
    if name in ("begin", "post", "out"):
        return [0]
    if name in ("loadat", "storeat"):
        return [2, 1]
    return [2] if name in ("push", "load", "store") or name in JUMPS else []


class Object:
    """An object file that keeps the rules of its form: its code, the first values of its words and the started posts."""

    def __init__(self, file):
        words, tasks, events, count = struct.unpack_from("<HBBI", file, 4)
        self.code, self.started = Code([], [], []), []
        self.words = list(struct.unpack_from(f"<{words}i", file, 12))
        place = 12 + 4 * words
        for _ in range(tasks):
            posts, _, entry = struct.unpack_from("<HHI", file, place)
            self.started.append(posts)
            self.code.tasks.append(entry)
            place += 8
        for _ in range(events):
            versions = file[place]
            self.code.versions.append(list(struct.unpack_from(f"<{versions}I", file, place + 4)))
            place += 4 + 4 * versions
        for _ in range(count):
            number, *fields = struct.unpack_from("<BBHI", file, place)
            numbers = [fields[field] for field in fields_of(NAMES[number])]
            if number == 0:
                numbers = list(struct.unpack_from("<i", file, place + 4))
            self.code.instructions.append(Instruction(NAMES[number], numbers))
            place += 8


class Machine:
    """A working state: the words, the posts, and the place in the tasks' code or none."""

    def __init__(self, code, words, posts):
        self.code, self.words, self.posts, self.place = code, list(words), list(posts), None

    def next(self):
        """The next instruction of the tasks, or none."""
        if self.place is not None:
            return self.place
        return next((entry for entry, posts in zip(self.code.tasks, self.posts) if posts), None)

    def section(self, out):
        """Runs up to the next instruction that acts, and says whether there was a section."""
        place, stack = self.next(), []
        if place is None:
            return False
        while True:
            instruction = self.code.instructions[place]
            place = self.do(instruction, place, stack, 0, out)
            if instruction.name in ACTS:
                self.place = place
                assert not stack
                return True

    def handler(self, event, version, payload, out, most=None):
        """Runs a version of an event, and says whether it ended within so many instructions."""
        place, stack, count = self.code.versions[event][version], [], 0
        while place is not None:
            if count == most:
                return False
            place = self.do(self.code.instructions[place], place, stack, payload, out)
            count += 1
        assert not stack
        return True

    def do(self, instruction, place, stack, payload, out):
        """Does an instruction, and gives the place behind it, or none after an `end`."""
        name, numbers = instruction
        if name in OPERATORS:
            right, left = stack.pop(), stack.pop()
            stack.append(int(OPERATORS[name](left, right)))
        elif name == "push":
            stack.append(numbers[0])
        elif name == "load":
            stack.append(self.words[numbers[0]])
        elif name == "payload":
            stack.append(payload)
        elif name == "neg":
            stack.append(interpret.wrap(-stack.pop()))
        elif name == "not":
            stack.append(int(stack.pop() == 0))
        elif name == "jump":
            return numbers[0]
        elif name == "jumpzero":
            return numbers[0] if stack.pop() == 0 else place + 1
        elif name == "turn":
            if stack[-1] == 0:
                stack.pop()
                return numbers[0]
            stack[-1] -= 1
        elif name == "begin":
            self.posts[numbers[0]] -= 1
        elif name == "end":
            return None
        elif name == "loadat":
            base, length = numbers
            stack.append(self.words[base + stack.pop() % length])
        elif name == "store":
            self.words[numbers[0]] = stack.pop()
        elif name == "storeat":
            base, length = numbers
            value, index = stack.pop(), stack.pop()
            self.words[base + index % length] = value
        elif name == "post":
            self.posts[numbers[0]] = min(65535, self.posts[numbers[0]] + 1)
        else:
            out(numbers[0], stack.pop())
        assert len(stack) <= 32
        return place + 1
