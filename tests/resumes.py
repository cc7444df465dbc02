#!/usr/bin/env python3
"""Cuts replays at their ticks, saves an image there, and resumes from it on the whole trace.

usage: tests/resumes.py PROGRAM [EVERY] [--beside OTHER] [--seed N] [--keep FOLDER]

For some rows of tests/rows the trace is cut at each tick, or at one tick of each EVERY (1); `image` saves what the device holds there, and
`resume` goes on from it. Then come random cases with random failures, 240 divided by EVERY, each cut near its writes and anywhere. Looked at is:

- that the image has the tick, the units, the records and the variables with which `replay` of the cut trace ends, and meets the
  conditions of docs/FILES.md (tests/saved.py);
- that the resumed report is one of a run that never loses power, from the image's moment on, and has the image's records first
  (tests/lives.py);
- where the device sleeps in the whole replay when it is cut, and nothing is lost by it: that the resumed report is the whole
  one without the lines of what happened before, and with `- before` for what had run.

With OTHER, a second program that answers the same words, status and bytes must be those of the other one. Each case that differs is
printed, and kept in FOLDER. The last lines say how many cuts were in sleep, and 'N passed, M failed'.
"""
import os
import random
import re
import sys
import tempfile

import generate
import lives
import saved

TOP = os.path.dirname(os.path.abspath(__file__))
# those whose devices draw their bounds, so that no section is dropped: the first three have a dropped arrival, equal deadlines and a full log
ROWS = ["replay-arrival-dropped", "replay-equal-deadlines", "replay-log-full", "replay-node", "replay-first-commit", "replay-torn-gate-even", "replay-torn-gate-odd", "replay-samples", "replay-second-line-torn"]
IMAGE = ["image", *(("cut" if word == "trace" else word) for word in generate.REPLAY[1:])]
CUT = ["replay", *IMAGE[1:]]
RESUME = ["resume", *generate.REPLAY[1:], "saved"]


def sleeps_on(whole, image, files):
    """Whether the device of a whole replay is off at the tick of an image, with nothing that isn't saved, as far as the report tells."""
    before = [mark for mark in whole.marks if mark.tick <= image.tick]
    after = [mark for mark in whole.marks if mark.tick > image.tick]
    if not lives.are_bounded(files) or before and before[-1].kind == "boot":
        return False
    wake = int(re.search(r"\[wake\]\s+ticks = (\d+)", files["device"])[1])
    # after a commit the device is on: it sleeps from then on where it has to wake again, or where it has no tasks
    if after:
        return after[0].kind == "boot" and after[0].tick - wake >= image.tick
    return not before or before[-1].kind == "lost" or "task" not in files["source"]


def rest_of(whole, tick):
    """The lines of a report that goes on from a tick."""
    for line in whole.splitlines():
        kind, *words = line.split(" ")
        if kind in ("lost", "boot", "commit") and int(words[0]) <= tick:
            continue
        if kind == "ran" and int(words[5]) <= tick:
            line = " ".join([kind, *words[:5], "- before"])
        yield line + "\n"


class Resumes:
    """The programs in a folder, and what came of each cut."""

    def __init__(self, programs, folder, kept):
        self.programs, self.folder, self.kept = programs, folder, kept
        self.passed = self.failed = self.sleeping = 0

    def ask(self, words):
        """The answer of the programs, and whether they differ."""
        answers = [generate.run(program, words, self.folder) for program in self.programs]
        faults = [f"{words[0]}: status {answer.status} and {answers[0].status}" for answer in answers if answer[:3] != answers[0][:3]]
        if answers[0].errors or answers[0].status is None or answers[0].status < 0:
            faults.append(f"{words[0]}: status {answers[0].status}, {answers[0].errors[:80]!r}")
        return answers[0], faults

    def begin(self, files):
        """Replays the files whole, and gives the report if there is one."""
        self.files = files
        generate.write(self.folder, files)
        answer, faults = self.ask(generate.REPLAY)
        if faults or answer.status not in (0, 12):
            return None
        self.whole, self.text = generate.Report(answer.text), answer.text.decode()
        versions = [version.version for version in self.whole.versions.values()]
        listing, _ = self.ask(["list", "source"])
        self.setting = saved.Setting(files, listing.text, versions)
        return self.whole

    def cut(self, label, tick):
        faults = self.faults_at(tick)
        self.passed += not faults
        if faults:
            self.failed += 1
            print(f"{label}, cut at {tick}: {'; '.join(faults[:3])}", flush=True)
            if self.kept:
                generate.keep(self.kept, f"resumes-{self.failed}", self.files, RESUME, [])

    def faults_at(self, tick):
        self.files["cut"] = generate.trace(generate.cut(generate.rows_of(self.files["trace"]), tick))
        generate.write(self.folder, {"cut": self.files["cut"]})
        (image, faults), (replay, more) = self.ask(IMAGE), self.ask(CUT)
        if faults + more or image.status not in (0, 12) or image.status != replay.status:
            return [*faults, *more, f"status {image.status} and {replay.status}"]
        self.files["saved"] = image.text
        generate.write(self.folder, {"saved": image.text})
        fault = saved.fault_of(self.setting, image.text)
        if fault:
            return [f"an image that isn't to be taken: {fault}"]
        before, found = generate.Report(replay.text), saved.Saved(self.setting, image.text)
        told = before.end.tick, before.end.stored, before.end.steps, len(before.log), sum(before.vars.values(), [])
        if told != (found.tick, found.stored, found.slot.steps, found.slot.length, found.slot.words):
            faults.append(f"the replay ends with {told}")
        answer, more = self.ask(RESUME)
        if more or answer.status not in (0, 12):
            return [*faults, *more, f"status {answer.status} {answer.text[:80]!r}"]
        report = generate.Report(answer.text)
        faults += lives.faults_of(report, self.files, found)
        if [entry[:5] for entry in report.log[: len(before.log)]] != [entry[:5] for entry in before.log]:
            faults.append("other records before")
        if (report.versions, report.numbers, report.dropped) != (self.whole.versions, self.whole.numbers, self.whole.dropped):
            faults.append("another head")
        if sleeps_on(self.whole, found, self.files):
            self.sleeping += 1
            if answer.text.decode() != "".join(rest_of(self.text, found.tick)):
                faults.append(f"not the rest of the whole: {answer.text[-200:]!r}")
        return faults

    def row(self, name, every):
        files = {}
        for file in generate.REPLAY[1:]:
            with open(os.path.join(TOP, "rows", name, file)) as text:
                files[file] = text.read()
        if self.begin(files) is None:
            sys.exit(f"row {name} is not replayed")
        for tick in range(0, self.setting.life + 1, every):
            self.cut(f"row {name}", tick)

    def case(self, random, label):
        source = generate.any_source(random)
        files = {"source": source, "trace": generate.any_trace(random), "arrivals": generate.any_arrivals(random, source), "failures": generate.failures([])}
        for _ in range(6):
            whole = self.begin({**files, "device": generate.any_device(random)})
            if whole:
                break
        else:
            return
        some, ticks = random.choice(list(generate.failing_ticks(random, whole.marks)))
        if self.begin({**self.files, "failures": generate.any_failures(random, ticks)}) is None:
            return
        near = [mark.tick - random.randint(-1, 3) for mark in random.sample(self.whole.marks, min(4, len(self.whole.marks)))]
        for tick in sorted({max(0, min(tick, self.setting.life)) for tick in near + [random.randint(0, self.setting.life) for _ in range(3)]}):
            self.cut(f"{label}, {some} failing", tick)


def main():
    seed, programs, every, kept = generate.asked(sys.argv[1:], 1, __doc__)
    with tempfile.TemporaryDirectory() as folder:
        resumes = Resumes(programs, folder, kept)
        for name in ROWS:
            resumes.row(name, every)
        for number in range(240 // every):
            resumes.case(random.Random(f"{seed} {number}"), f"case {number}")
    print(f"{resumes.sleeping} cuts in sleep")
    print(f"{resumes.passed} passed, {resumes.failed} failed")
    sys.exit(1 if resumes.failed else 0)


main()
