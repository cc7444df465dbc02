#!/usr/bin/env python3
"""Replays random programs in calm traces on the tightest devices: every event must be on time.

usage: tests/calm.py PROGRAM [COUNT] [--seed N] [--broken] [--keep FOLDER]

Each of COUNT cases (1000) is a random source on a device with random costs. By `check` the deadline of some event, the
harvest guarantee `q` and the store's `cap` are made as small as the choice of versions allows. The replay is calm from
tick 0 to its end (docs/REPLAY.md): the store holds the reserve at the start, no power failure strikes, actual costs with
the trace's extras are at most the bounds, and each p ticks in a row bring exactly q units, as unevenly as can be.
Arrivals come at the densest spacing, and some of them too soon.

Then no line says `lost` or `late`, and each arrival that is not dropped and is due by the last tick has exactly one
`ran` line, in the chosen version, with the word `met`. Printed are how many arrivals were looked at, and
'N passed, M failed'.

With --broken each p ticks bring one unit less than q. That is not calm: some cases have to fail then, and it is printed
how many. So it shows that the test can fail.
"""
import collections
import os
import random
import re
import sys
import tempfile

import generate

LONGEST = 6000


class Rejected(Exception):
    """The events of a case are feasible at no size of store."""


class Case:
    """A source with a device that is as small as `check` allows."""

    def __init__(self, program, folder, source):
        self.program, self.folder, self.random = program, folder, source
        clock = source.choice([60, 90, 96, 100])
        tasks = source.choice([0, 1, 1, 2])
        self.source = generate.Source(source, tasks=tasks, events=3, versions=3, depth=1, length=2, reach=1, clock=clock).text
        if not generate.events_of(self.source):
            raise Rejected
        self.costs = {name: self.cost(most) for name, most in zip(generate.CLASSES, (2, 3, 5, 4, 6))}
        self.top = {"cap": 1000000, "start": 0, "log": 20000, "p": clock * source.choice([1, 1, 2, 3]) // source.choice([1, 2, 4, 6, 10]), "q": 1000000}
        self.top["fill"] = generate.fill(source)
        self.chosen = self.versions()
        if self.chosen is None:
            raise Rejected
        self.tighten()

    def cost(self, most):
        """Ticks, bound and actual units of a class of operations."""
        bound = self.random.randint(1, most)
        ticks = self.random.choice([1, 1, 1, 2])
        return ticks, bound, self.random.choice([bound, bound, self.random.randint(0, bound)])

    def files(self):
        return {"source": self.source, "device": generate.device(self.top, self.costs)}

    def versions(self):
        """The versions that `check` chooses, or none where it rejects."""
        generate.write(self.folder, self.files())
        answer = generate.run(self.program, ["check", "source", "device"], self.folder)
        if answer.status != 0:
            return None
        report = generate.Report(answer.text)
        self.numbers, self.loads = report.numbers, report.versions
        return re.findall(rb"version \S+ \d+ units \d+ ticks \d+", answer.text)

    def least(self, change, low, high, guess=None):
        """Makes a number the least, from `low` on, with which the versions are the wanted ones. With `high` they are.
        It is found by bisection, and sooner where a guess is right."""
        guesses = [] if guess is None else [guess, guess - 1]
        while low < high:
            middle = guesses.pop(0) if guesses else (low + high) // 2
            if not low <= middle < high:
                continue
            change(middle)
            if self.is_wanted(self.versions()):
                high = middle
            else:
                low = middle + 1
        change(high)
        assert self.is_wanted(self.versions())

    def is_wanted(self, versions):
        return versions is not None and (self.may_degrade or versions == self.chosen)

    def tighten(self):
        self.may_degrade = False
        event = self.random.choice(generate.events_of(self.source))
        if self.random.random() < 0.5:
            self.least(lambda deadline: self.set_deadline(event.name, deadline), 1, event.deadline)
        # the least harvest with which the versions stay, or with which any are feasible
        self.may_degrade = self.random.random() < 0.3
        window = self.numbers["window"]
        jobs = sum(window // event.spacing * self.loads[event.name].units for event in generate.events_of(self.source))
        self.least(lambda q: self.top.update(q=q), 0, self.top["q"], -(-jobs * self.top["p"] // window))
        self.chosen = self.versions()
        self.may_degrade = False
        needed = sum(load.units for load in self.loads.values()) + self.costs["wake"][1]
        needed += sum(self.numbers[name] for name in ("reserve", "checkpoint", "section"))
        self.least(lambda cap: self.top.update(cap=cap), 1, self.top["cap"], needed)
        cap, reserve = self.top["cap"], self.numbers["reserve"]
        self.top["start"] = self.random.choice([reserve, reserve, self.random.randint(reserve, cap)])
        self.top["resume"] = self.random.choice([0, 0, self.random.randint(0, cap)])

    def set_deadline(self, name, deadline):
        self.source = re.sub(rf"(event {name} .*? deadline )\d+", rf"\g<1>{deadline}", self.source)

    def arrivals(self, life):
        """Rows for the reactive events, at their spacing, and some that come too soon."""
        rows = []
        noise = self.random.choice([0, 0, 0.3])
        together = self.random.randrange(self.top["p"] + 1)
        for event in generate.events_of(self.source):
            if event.is_periodic:
                continue
            tick = self.random.choice([0, together, together, self.random.randrange(event.spacing)])
            later = self.random.choice([0, 0, 0, 3])
            while tick < life + event.spacing and tick < 1000000:
                rows.append((tick, event.name, self.random.randint(-9, 99)))
                if self.random.random() < noise:
                    rows.append((tick + self.random.randrange(event.spacing), event.name, 0))
                tick += event.spacing + self.random.randint(0, later)
        return sorted(row for row in rows if row[0] < 1000000)

    def trace(self, life, q):
        """Rows that bring q units in each p ticks: all in one tick of them, or in a few."""
        p = self.top["p"]
        phase = self.random.choice([0, p - 1, p - 1, self.random.randrange(p)])
        bursts = collections.Counter({phase: q})
        if self.random.random() < 0.3:
            cuts = sorted(self.random.randint(0, q) for _ in range(2))
            bursts = collections.Counter()
            for units in (cuts[0], cuts[1] - cuts[0], q - cuts[1]):
                bursts[self.random.randrange(p)] += units
        most = min(bound - actual for _, bound, actual in self.costs.values())
        rows, done = [], 0
        ticks = [(start + place, bursts[place]) for start in range(0, life, p) for place in sorted(bursts)]
        for tick, units in [*ticks, (life, None)]:
            if done < tick <= life:
                rows.append((tick - done, 0, self.random.randint(0, most), self.random.randint(-99, 99)))
            if tick < life and units is not None:
                rows.append((1, units, self.random.randint(0, most), 7))
            done = tick + 1
        return rows


def faults_of(report, chosen, source, rows, trace):
    """What is late, lost or missing in the report of a calm replay, and how many arrivals were looked at."""
    faults, looked = [], 0
    if any(mark.kind == "lost" for mark in report.marks):
        faults.append("lost")
    if [f"version {name} {row.version} units {row.units} ticks {row.ticks}".encode() for name, row in report.versions.items()] != chosen:
        faults.append("not the versions of check")
    if any(entry.word != "met" for entry in report.ran()):
        faults.append("late")
    lines = collections.Counter((entry.name, entry.index) for entry in report.ran())
    told = {(entry.name, entry.index): entry for entry in report.ran()}
    for event in generate.events_of(source):
        for index, (tick, _) in enumerate(generate.kept(event, rows, trace)):
            if tick + event.deadline > report.end.tick:
                continue
            looked += 1
            entry = told.get((event.name, index))
            if lines[event.name, index] != 1 or entry.word != "met":
                faults.append(f"{event.name} {index} missed")
            elif entry.version != report.versions[event.name].version or entry.arrived != tick or not tick <= entry.started < entry.done <= tick + event.deadline:
                faults.append(f"{event.name} {index} told otherwise")
    return faults, looked


def main():
    words = sys.argv[1:]
    is_broken = generate.flag(words, "--broken")
    seed = generate.option(words, "--seed", "1")
    kept = generate.option(words, "--keep")
    if not words:
        sys.exit(__doc__)
    program = os.path.abspath(words[0])
    count = int(words[1]) if len(words) > 1 else 1000
    passed = failed = looked = number = 0
    with tempfile.TemporaryDirectory() as folder:
        while passed + failed < count:
            number += 1
            source = random.Random(f"{seed} {number}")
            try:
                case = Case(program, folder, source)
            except Rejected:
                continue
            life = min(LONGEST, 3 * case.numbers["window"] + source.randrange(200))
            rows = case.arrivals(life)
            trace = case.trace(life, max(0, case.top["q"] - is_broken))
            files = {**case.files(), "trace": generate.trace(trace), "arrivals": generate.arrivals(rows), "failures": generate.failures([])}
            generate.write(folder, files)
            answer = generate.run(program, generate.REPLAY, folder)
            faults = [f"status {answer.status} {answer.text[:80]!r} {answer.errors[:80]!r}"]
            if answer.status in (0, 12) and not answer.errors:
                faults, more = faults_of(generate.Report(answer.text), case.chosen, case.source, rows, trace)
                looked += more
            if not faults:
                passed += 1
                continue
            failed += 1
            if not is_broken:
                print(f"case {number}: {', '.join(faults[:5])}", flush=True)
            if kept:
                generate.keep(kept, f"calm-{number}", files, generate.REPLAY, [answer])
    print(f"{looked} arrivals")
    print(f"{passed} passed, {failed} failed")
    sys.exit(1 if (failed == 0) == is_broken else 0)


main()
