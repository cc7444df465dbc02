#!/usr/bin/env python3
"""Runs two programs on the same random inputs: they must answer alike.

usage: tests/beside.py PROGRAM OTHER [COUNT] [--seed N] [--keep FOLDER]

Each of COUNT cases (1000) is a random source on a random device, with a random forecast, trace, arrivals and failures. Both
programs are asked to run it, to list it, to check it, to plan for it and to replay it some times: without failures, with failures at
random, in long rows, and in each tick of the writes that the first replay told of; with and without the forecast. Status and bytes
must be the same.
Each case that differs is printed, and kept in FOLDER with both answers. The last lines count the answers by command and
status, and say 'N passed, M failed'.
"""
import collections
import os
import random
import sys
import tempfile

import generate

class Beside:
    """Two programs in one folder, and a count of what they answered."""

    def __init__(self, program, other, folder, kept):
        self.programs, self.folder, self.kept = [program, other], folder, kept
        self.counts = collections.Counter()
        self.passed = self.failed = 0
        self.files = {}

    def put(self, **files):
        self.files.update(files)
        generate.write(self.folder, files)

    def ask(self, label, words):
        """Asks both programs, and gives what the first one answers."""
        answers = [generate.run(program, words, self.folder) for program in self.programs]
        first, second = answers
        self.counts[words[0], first.status] += 1
        if first[:3] == second[:3] and first.status in (*range(13), 15) and first.status != 4:
            self.passed += 1
            return first
        self.failed += 1
        print(f"{label}, {words[0]}: status {first.status} and {second.status}", flush=True)
        lines, others = first.text.splitlines(), second.text.splitlines()
        for number, pair in enumerate(zip(lines + [None] * len(others), others + [None] * len(lines))):
            if pair[0] != pair[1]:
                print(f"  line {number + 1}: {pair[0]} and {pair[1]}")
                break
        if self.kept:
            generate.keep(self.kept, f"beside-{self.failed}", self.files, words, answers)
        return first

    def case(self, random, label):
        """One source: run, listed, checked on some devices, and replayed on one of them."""
        self.put(source=generate.any_source(random))
        self.ask(label, ["run", "source", str(random.choice([0, 1, 20, 3000, 100000]))])
        self.ask(label, ["list", "source"])
        for _ in range(6):
            self.put(device=generate.any_device(random))
            self.ask(label, ["plan", "source", "device"])
            if self.ask(label, ["check", "source", "device"]).status == 0:
                break
        self.put(forecast=generate.any_forecast(random, self.files["device"]))
        self.ask(label, ["check", "source", "device", "forecast"])
        self.put(trace=generate.any_trace(random), arrivals=generate.any_arrivals(random, self.files["source"]), failures=generate.failures([]))
        self.replays(random, label, generate.REPLAY)
        self.replays(random, label, [*generate.REPLAY, "forecast"])

    def replays(self, random, label, words):
        """Replays a case without failures, and with some."""
        self.put(failures=generate.failures([]))
        first = self.ask(label, words)
        if first.status not in (0, 12):
            return
        for some, ticks in generate.failing_ticks(random, generate.Report(first.text).marks):
            self.put(failures=generate.any_failures(random, ticks))
            self.ask(f"{label}, {some} failing", words)


def main():
    words = sys.argv[1:]
    seed = generate.option(words, "--seed", "1")
    kept = generate.option(words, "--keep")
    if len(words) < 2:
        sys.exit(__doc__)
    count = int(words[2]) if len(words) > 2 else 1000
    with tempfile.TemporaryDirectory() as folder:
        both = Beside(os.path.abspath(words[0]), os.path.abspath(words[1]), folder, kept and os.path.abspath(kept))
        for number in range(count):
            both.case(random.Random(f"{seed} {number}"), f"case {number}")
    for (command, status), times in sorted(both.counts.items(), key=str):
        print(f"{command} status {status}: {times}")
    print(f"{both.passed} passed, {both.failed} failed")
    sys.exit(1 if both.failed else 0)


main()
