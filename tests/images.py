#!/usr/bin/env python3
"""Changes each byte of some saved images in turn, and resumes from them: only what docs/FILES.md asks of a saved image may be taken.

usage: tests/images.py PROGRAM [ROUNDS] [--beside OTHER] [--seed N] [--keep FOLDER]

The images are those that the program's own `image` writes of some rows of tests/rows, whole and cut somewhere, each on a device whose log
has place for two records more. Each byte of each image is changed ROUNDS times (3): to the next value, to one with another bit, and
then to any; bytes are cut off and put behind, and numbers of the head, of the slots and of records get values at their limits. A
model of the ten conditions (tests/saved.py) says which fault has to come; where it says none, the resumed run has to be
one by docs/REPLAY.md (tests/lives.py). With OTHER, a second program that answers the same words, status and bytes must be those of the
other one. Each case that differs is printed, and kept in FOLDER. The last lines count the kinds of faults, and say
'N passed, M failed'.
"""
import collections
import os
import random
import re
import struct
import sys
import tempfile

import generate
import lives
import saved

TOP = os.path.dirname(os.path.abspath(__file__))
RESUME = ["resume", *generate.REPLAY[1:], "saved"]
# rows, and the ticks at which their traces are cut for the image: none for the whole
CASES = [("replay-first-commit", None), ("replay-first-commit", 9), ("replay-equal-deadlines", 15), ("replay-samples", 28), ("replay-node", 300), ("replay-torn-gate-odd", 12)]
NUMBERS = [0, 1, 2, 3, 255, 256, 65535, 65536, 2**31 - 1, 2**31, 2**32 - 2, 2**32 - 1]


def files_of(row, cut):
    """The files of a row, and the trace of the image."""
    files = {}
    for name in generate.REPLAY[1:]:
        with open(os.path.join(TOP, "rows", row, name)) as file:
            files[name] = file.read()
    rows = generate.rows_of(files["trace"])
    files["cut"] = files["trace"] if cut is None else generate.trace(generate.cut(rows, cut))
    return files


class Images:
    """The programs in a folder, and what came of each image."""

    def __init__(self, programs, folder, kept):
        self.programs, self.folder, self.kept = programs, folder, kept
        self.counts = collections.Counter()
        self.passed = self.failed = 0

    def ask(self, words, number=0):
        return generate.run(self.programs[number], words, self.folder)

    def begin(self, row, cut):
        """The image of a row, on a log with place for two records more than it has in the end."""
        self.files = files_of(row, cut)
        generate.write(self.folder, self.files)
        report = generate.Report(self.ask(generate.REPLAY).text)
        self.files["device"] = re.sub(r"(?m)^log = \d+", f"log = {len(report.log) + 2}", self.files["device"])
        generate.write(self.folder, self.files)
        versions = [version.version for version in report.versions.values()]
        self.setting = saved.Setting(self.files, self.ask(["list", "source"]).text, versions)
        answer = self.ask(["image", *(("cut" if word == "trace" else word) for word in generate.REPLAY[1:])])
        if answer.status != 0:
            sys.exit(f"{row}: image answers {answer.status}, {answer.text[:80]!r}")
        return answer.text

    def look(self, label, image):
        generate.write(self.folder, {"saved": image})
        answers = [self.ask(RESUME, number) for number in range(len(self.programs))]
        answer = answers[0]
        wanted = saved.fault_of(self.setting, image)
        told = re.fullmatch(rb"fault image ([A-Z][a-z]+) (\d+)\n", answer.text)
        faults = []
        if answer.errors or any(other[:3] != answer[:3] for other in answers):
            faults = [f"status {[one.status for one in answers]}, {answer.errors[:80]!r}, {answers[-1].text[:80]!r}"]
        elif wanted is None and answer.status in (0, 12):
            faults = lives.faults_of(generate.Report(answer.text), self.files, saved.Saved(self.setting, image))
        elif wanted is None or answer.status != 14 or not told or (told[1].decode(), wanted[1] if wanted[1] is None else int(told[2])) != wanted:
            faults = [f"wanted {wanted}, and it was {answer.status} {answer.text[:80]!r}"]
        self.counts[wanted[0] if wanted else "taken"] += 1
        self.passed += not faults
        if faults:
            self.failed += 1
            print(f"{label}: {'; '.join(faults[:3])}", flush=True)
            if self.kept:
                generate.keep(self.kept, f"images-{self.failed}", {**self.files, "saved": image}, RESUME, answers)

    def row(self, random, row, cut, rounds):
        image = self.begin(row, cut)
        name = f"row {row} at {cut or 'the end'}"
        self.look(f"{name}, as it is", image)
        for place, byte in enumerate(image):
            values = [(byte + 1) % 256, byte ^ 1 << random.randrange(1, 8)] + [random.randrange(256) for _ in range(rounds)]
            for value in values[:rounds]:
                self.look(f"{name}, byte {place} is {value}", image[:place] + bytes([value]) + image[place + 1 :])
        for length in sorted({*range(21), *(random.randrange(len(image)) for _ in range(rounds)), len(image) - 1}):
            self.look(f"{name}, cut to {length} bytes", image[:length])
        self.look(f"{name}, with a byte more", image + b"\0")
        self.look(f"{name}, with a line more", image + bytes(64))
        slots, log = 16 + 64, 16 + 64 + 128 * self.setting.lines
        tick = struct.unpack_from("<I", image, 4)[0]
        around = [tick - 1, tick, tick + 1, *(limit + more for limit in (self.setting.life, self.setting.cap, self.setting.log) for more in (0, 1))]
        numbers = [4, 8, *range(slots, log, 4), *range(log, len(image), 4)]
        for place in numbers:
            own = struct.unpack_from("<I", image, place)[0]
            near = [own - 1, own + 1, own + 2, *around, *NUMBERS]
            for value in random.sample(near, min(2 * rounds, len(near))):
                changed = bytearray(image)
                struct.pack_into("<I", changed, place, value % 2**32)
                self.look(f"{name}, number at {place} is {value}", bytes(changed))


def main():
    seed, programs, rounds, kept = generate.asked(sys.argv[1:], 3, __doc__)
    with tempfile.TemporaryDirectory() as folder:
        images = Images(programs, folder, kept)
        for row, cut in CASES if rounds > 1 else CASES[-3:]:
            images.row(random.Random(f"{seed} {row} {cut}"), row, cut, rounds)
    for kind, times in sorted(images.counts.items()):
        print(f"{kind}: {times}")
    print(f"{images.passed} passed, {images.failed} failed")
    sys.exit(1 if images.failed else 0)


main()
