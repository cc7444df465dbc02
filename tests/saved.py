"""Saved images: taken apart, and judged by the ten conditions of docs/FILES.md.

What a place stands for, and what the log comes to, is told by the listing that the program under test gives of the source,
run by a machine of the tests' own (tests/machine.py).
"""
import collections
import re
import struct

import generate
import interpret
import machine

MOST_BYTES = 16777216
MOST_STEPS = 100000  # that are run here; whether a task has more of them is not asked
NO_PLACE = 0xFFFFFFFF

OutRecord = collections.namedtuple("OutRecord", "channel value")
RanRecord = collections.namedtuple("RanRecord", "event version steps start index")
Slot = collections.namedtuple("Slot", "length steps place words posts done rest")


class Setting:
    """What a saved image is looked at for: a source on a device with a trace and arrivals, and the versions that were chosen."""

    def __init__(self, files, listing, versions):
        reader = interpret.Reader(files["source"])
        self.words = [value for values in reader.variables.values() for value in values]
        self.started = [min(65535, reader.starts.count(name)) for name in reader.tasks]
        self.counts = [len(versions) for versions in reader.events.values()]
        self.events = generate.events_of(files["source"])
        self.versions = versions
        self.code = machine.listed(listing)
        trace = generate.rows_of(files["trace"])
        self.life = sum(row[0] for row in trace)
        self.arrivals = [generate.kept(event, generate.rows_of(files["arrivals"]), trace) for event in self.events]
        self.cap, self.log = (int(re.search(rf"(?m)^{key} = (\d+)", files["device"])[1]) for key in ("cap", "log"))
        self.lines = -(-(12 + 4 * (len(self.words) + len(self.started) + len(self.events))) // 64)
        self.size = 16 + 64 + 128 * self.lines + 16 * self.log

    def stands_for(self, place):
        """What a place of the tasks' code stands for, as one place of those that stand for it, or nothing."""
        code = self.code.instructions
        ends = [versions[0] for versions in self.code.versions] + [len(code)]
        if not 0 < place < ends[0]:
            return None
        before = code[place - 1].name
        if before == "end" or before not in machine.ACTS | {"jump"}:
            return None
        while code[place].name == "jump":
            place = code[place].numbers[0]
        return "the end" if code[place].name == "end" else place


class Saved:
    """A file of the right head and size, taken apart."""

    def __init__(self, setting, file):
        self.tick, self.stored = struct.unpack_from("<II", file, 4)
        self.image, self.lines = file[16:], setting.lines
        self.selected = self.image[0] % 2
        counts = [len(setting.words), len(setting.started), len(setting.events)]
        length, steps, place, *numbers = struct.unpack_from(f"<III{counts[0]}i{counts[1] + counts[2]}I", self.image, 64 + 64 * self.lines * self.selected)
        parts = [numbers[: counts[0]], numbers[counts[0] : counts[0] + counts[1]], numbers[counts[0] + counts[1] :]]
        begin = 64 + 64 * self.lines * self.selected
        rest = self.image[begin + 12 + 4 * sum(counts) : begin + 64 * self.lines]
        self.slot = Slot(length, steps, None if place == NO_PLACE else place, *parts, rest)
        self.records = []  # the committed ones
        if length <= setting.log:
            self.records = [record(setting, self.image, 64 + 128 * self.lines + 16 * number) for number in range(length)]

    def ran(self):
        return [entry for entry in self.records if isinstance(entry, RanRecord)]


def record(setting, image, place):
    """The entry that sixteen bytes spell, or none."""
    kind, first, second, third, number, start, index = struct.unpack_from("<BBBBIII", image, place)
    if kind == 1 and (second, third, start, index) == (0, 0, 0, 0):
        return OutRecord(first, struct.unpack_from("<i", image, place + 4)[0])
    if kind == 2 and third == 0 and first < len(setting.events) and second < setting.counts[first]:
        return RanRecord(first, second, number, start, index)
    return None


def fault_of(setting, file):
    """The first condition that a file fails, as the kind and the number of its fault, or none. The number is none where an event is told
    to have run after more steps than can be run here: then it may be that of any event from this one on."""
    if file[:4] != b"CNI1":
        return "Head", 0
    if len(file) != setting.size or any(file[12:16]):
        return "Size", min(len(file), MOST_BYTES + 1)
    saved = Saved(setting, file)
    slot = saved.slot
    if saved.tick > setting.life:
        return "Tick", saved.tick
    if saved.stored > setting.cap:
        return "Stored", saved.stored
    if slot.length > setting.log or any(posts > 65535 for posts in slot.posts) or any(slot.rest):
        return "Slot", saved.selected
    if slot.steps > saved.tick:
        return "Steps", slot.steps
    if slot.place is not None and setting.stands_for(slot.place) is None:
        return "Place", slot.place
    for number, entry in enumerate(saved.records):
        if entry is None or isinstance(entry, RanRecord) and entry.start >= saved.tick:
            return "Record", number
    for event, done in enumerate(slot.done):
        if done != sum(entry.event == event for entry in saved.ran()):
            return "Done", event
    return fault_of_run(setting, saved)


def fault_of_run(setting, saved):
    """Runs what the log tells, without a loss, and compares."""
    state = machine.Machine(setting.code, setting.words, setting.started)
    entries, done, steps, start = [], [0] * len(setting.events), 0, 0

    def out(channel, value):
        entries.append(OutRecord(channel, value))

    def go_on(upto):
        return upto >= steps and all(state.section(out) for _ in range(upto - steps))

    for number, item in enumerate(saved.ran()):
        if item.steps > MOST_STEPS:
            return "Schedule", None
        if item.start < start or not go_on(item.steps):
            return "Schedule", number
        steps, start = item.steps, item.start
        waiting = []
        for event, (declared, arrivals) in enumerate(zip(setting.events, setting.arrivals)):
            if done[event] < len(arrivals) and arrivals[done[event]][0] <= start:
                waiting.append((arrivals[done[event]][0] + declared.deadline, event))
        if not waiting or (min(waiting)[1], setting.versions[item.event]) != (item.event, item.version):
            return "Schedule", number
        payload = setting.arrivals[item.event][done[item.event]][1]
        state.handler(item.event, item.version, payload, out)
        entries.append(RanRecord(item.event, item.version, steps, start, done[item.event]))
        done[item.event] += 1
    if not go_on(saved.slot.steps):
        return "Schedule", len(saved.ran())
    for number in range(max(len(entries), len(saved.records))):
        if entries[number : number + 1] != saved.records[number : number + 1]:
            return "State", number
    told = [place and setting.stands_for(place) for place in (state.place, saved.slot.place)]
    if told[0] != told[1] or (state.words, state.posts) != (saved.slot.words, saved.slot.posts):
        return "State", len(entries)
    return None
