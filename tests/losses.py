#!/usr/bin/env python3
"""Replays with power failures anywhere, and looks whether each report is one of a run that never loses power.

usage: tests/losses.py PROGRAM [COUNT] [--seed N] [--keep FOLDER]

For some rows of tests/rows power fails in each tick of the trace in turn, alone and beside the failures of the row, and
leaves the bytes 00, 01, A5 and FF. Then come COUNT random cases (100) with many kinds of failures. Of each report is
checked what docs/REPLAY.md says that it guarantees:

- an interpreter of its own (tests/interpret.py) takes the steps, serves the arrivals of the `ran` lines where the
  `commit` and `boot` lines say that they were served, and then has the log, the variables and the steps of the report;
- each `boot` and `commit` line tells a moment of this run, none earlier than the line before it;
- each event's arrivals run in their order, each once, in the chosen version and after they came, and `met` stands where
  the deadline was kept;
- power is lost only where a failure struck, if operations draw their bounds at most.

The last line is 'N passed, M failed'.
"""
import os
import random
import sys
import tempfile

import generate
import lives

TOP = os.path.dirname(os.path.abspath(__file__))
ROWS = ["replay-first-commit", "replay-samples", "replay-node", "replay-second-line-torn"]
FILLS = ["00", "01", "A5", "FF"]


class Losses:
    """Replays of a program in a folder, each looked at, and a count of them."""

    def __init__(self, program, folder, kept):
        self.program, self.folder, self.kept = program, folder, kept
        self.passed = self.failed = 0

    def look(self, label, files, changed):
        """Replays with the changed files, and gives the report if there is one."""
        files.update(changed)
        generate.write(self.folder, changed)
        answer = generate.run(self.program, generate.REPLAY, self.folder)
        report, faults = None, []
        if answer.status in (0, 12) and not answer.errors:
            report = generate.Report(answer.text)
            faults = lives.faults_of(report, files)
        elif answer.status not in range(5, 12) or answer.errors:
            faults = [f"status {answer.status} {answer.errors[:80]!r}"]
        if not faults:
            self.passed += 1
            return report
        self.failed += 1
        print(f"{label}: {'; '.join(faults[:3])}", flush=True)
        if self.kept:
            generate.keep(self.kept, f"losses-{self.failed}", files, generate.REPLAY, [answer])
        return report

    def row(self, name):
        """A row of tests/rows, with a failure in each tick in turn."""
        files = {}
        for file in generate.REPLAY[1:]:
            with open(os.path.join(TOP, "rows", name, file)) as text:
                files[file] = text.read()
        own = [line.split(",") for line in files["failures"].split()[1:]]
        generate.write(self.folder, files)
        for tick in range(sum(row[0] for row in generate.rows_of(files["trace"]))):
            for fill in FILLS:
                beside = sorted([[str(tick), fill]] + [row for row in own if int(row[0]) != tick], key=lambda row: int(row[0]))
                for rows in [[[tick, fill]], beside][: 1 + bool(own)]:
                    self.look(f"row {name}, {fill} in tick {tick}", files, {"failures": generate.failures(rows)})

    def case(self, random, label):
        """A random case on a device that its events fit on, if one is found soon."""
        source = generate.any_source(random)
        files = {"source": source, "trace": generate.any_trace(random), "arrivals": generate.any_arrivals(random, source), "failures": generate.failures([])}
        generate.write(self.folder, files)
        for _ in range(6):
            report = self.look(label, files, {"device": generate.any_device(random)})
            if report:
                break
        for some, ticks in generate.failing_ticks(random, report.marks) if report else []:
            self.look(f"{label}, {some} failing", files, {"failures": generate.any_failures(random, ticks)})


def main():
    words = sys.argv[1:]
    seed = generate.option(words, "--seed", "1")
    kept = generate.option(words, "--keep")
    if not words:
        sys.exit(__doc__)
    count = int(words[1]) if len(words) > 1 else 100
    with tempfile.TemporaryDirectory() as folder:
        losses = Losses(os.path.abspath(words[0]), folder, kept and os.path.abspath(kept))
        for name in ROWS:
            losses.row(name)
        for number in range(count):
            losses.case(random.Random(f"{seed} {number}"), f"case {number}")
    print(f"{losses.passed} passed, {losses.failed} failed")
    sys.exit(1 if losses.failed else 0)


main()
