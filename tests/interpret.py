"""Runs of a source that never loses power, by an interpreter that shares nothing with the program under test.

A source (docs/LANGUAGE.md) is turned into Python code: a task into a generator that yields after each step, a version of
an event into a function. It has to be a source that is not refused.
"""
import re

TOKENS = re.compile(r"//[^\n]*|\w+|&&|\|\||[<>=!]=|\S")
LEVELS = [("||",), ("&&",), ("==", "!=", "<", "<=", ">", ">="), ("+", "-"), ("*", "/", "%")]
CODE = {"||": "({} | {})", "&&": "({} & {})", "+": "wrap({} + {})", "-": "wrap({} - {})", "*": "wrap({} * {})", "/": "quotient({}, {})", "%": "rest({}, {})"}


def wrap(number):
    return (number + 2**31) % 2**32 - 2**31


def quotient(left, right):
    if right == 0:
        return 0
    whole = abs(left) // abs(right)
    return wrap(whole if (left < 0) == (right < 0) else -whole)


def rest(left, right):
    return wrap(left - quotient(left, right) * right) if right else 0


class Reader:
    """Turns the tokens of a source into Python code."""

    def __init__(self, text):
        self.tokens = [token for token in TOKENS.findall(text) if not token.startswith("//")] + [""]
        self.place = 0
        self.variables, self.starts, self.tasks, self.events = {}, [], {}, {}
        while self.tokens[self.place]:
            self.item()

    def take(self, *wanted):
        """The next token, if it is one of these; any where none is named."""
        token = self.tokens[self.place]
        if wanted and token not in wanted:
            return None
        self.place += 1
        return token

    def item(self):
        kind, name = self.take(), self.take()
        if kind in ("int", "bool"):
            if self.take("["):
                self.variables[name] = [0] * int(self.take())
                self.take("]")
            else:
                self.take("=")
                sign = -1 if self.take("-") else 1
                value = self.take()
                self.variables[name] = [{"true": 1, "false": 0}[value] if kind == "bool" else sign * int(value)]
            self.take(";")
        elif kind == "task":
            self.tasks[name] = ["def body(v, post, out):", *self.block("  ", True), "  return", "  yield"]
        elif kind == "event":
            while not self.tokens[self.place] == "{":
                self.place += 1
            versions = [self.block("  ", False)]
            while self.take("else"):
                versions.append(self.block("  ", False))
            self.events[name] = [["def body(v, post, out, payload):", *lines, "  return"] for lines in versions]
        else:
            self.starts += [name] if kind == "start" else []
            while self.take() != ";":
                pass

    def block(self, margin, steps):
        """The lines of a block; where it is a task's, each step ends with a yield."""
        self.take("{")
        lines = []
        while not self.take("}"):
            lines += [margin + line for line in self.statement(steps)]
        return lines

    def statement(self, steps):
        then = ["yield"] if steps else []
        word = self.take()
        if word == "if":
            lines = [f"if {self.level(0)}:", *("  " + line for line in then), *self.block("  ", steps), "  pass"]
            other = self.block("  ", steps) if self.take("else") else []
            return lines + ["else:", *("  " + line for line in then), *other, "  pass"]
        if word == "while":
            return [f"while {self.level(0)}:", *("  " + line for line in then), *self.block("  ", steps), *then]
        if word == "repeat":
            return [f"for _ in range({self.take()}):", *self.block("  ", steps), "  pass"]
        if word == "post":
            line = f"post({self.take()!r})"
        elif word == "out":
            channel = self.take()
            self.take(",")
            line = f"out({channel}, {self.level(0)})"
        else:
            place = self.named(word)
            self.take("=")
            line = f"{place} = {self.level(0)}"
        self.take(";")
        return [line, *then]

    def named(self, name):
        if not self.take("["):
            return f"v[{name!r}][0]"
        index = self.level(0)
        self.take("]")
        return f"v[{name!r}][{index} % len(v[{name!r}])]"

    def level(self, number):
        """An expression of a level of operators, from the loosest on."""
        if number == len(LEVELS):
            return self.unary()
        left = self.level(number + 1)
        while sign := self.take(*LEVELS[number]):
            left = CODE.get(sign, "int({} " + sign + " {})").format(left, self.level(number + 1))
        return left

    def unary(self):
        sign = self.take("-", "!")
        word = self.take()
        if word == "(":
            value = self.level(0)
            self.take(")")
        elif word.isdigit():
            value = str(int(word))
        elif word in ("true", "false"):
            value = str(int(word == "true"))
        else:
            value = word if word == "payload" else self.named(word)
        return value if sign is None else f"wrap(-{value})" if sign == "-" else f"(1 - {value})"


class Life:
    """A run: its variables, its log of outputs and events, and how many steps its tasks have taken."""

    def __init__(self, text):
        source = Reader(text)
        self.tasks = {name: self.body(lines) for name, lines in source.tasks.items()}
        self.events = {name: [self.body(lines) for lines in versions] for name, versions in source.events.items()}
        self.variables = source.variables
        self.posts = {name: min(65535, source.starts.count(name)) for name in self.tasks}
        self.current = None
        self.log, self.steps = [], 0

    @staticmethod
    def body(lines):
        names = {"wrap": wrap, "quotient": quotient, "rest": rest}
        exec("\n".join(lines), names)
        return names["body"]

    def post(self, name):
        self.posts[name] = min(65535, self.posts[name] + 1)

    def out(self, channel, value):
        self.log.append((channel, value))

    def step(self):
        """Takes a step of the tasks, or says that there is none."""
        if self.current is None:
            name = next((name for name, count in self.posts.items() if count), None)
            if name is None:
                return False
            self.posts[name] -= 1
            self.current = self.tasks[name](self.variables, self.post, self.out)
        elif next(self.current, self) is self:
            self.current = None
        self.steps += 1
        return True

    def serve(self, name, version, payload, entry):
        """Handles an event, and logs an entry for it."""
        self.events[name][version](self.variables, self.post, self.out, payload)
        self.log.append(entry)
