"""Whether a report is one of a run that never loses power: what docs/REPLAY.md says that it guarantees."""
import re

import generate
import interpret


def steps_before(entry, report):
    """The task steps before an event that ran: those of its commit, or where its gate was lost, of the next boot."""
    for mark in report.marks:
        if mark.kind == "commit" and mark.tick == entry.done or mark.kind == "boot" and mark.tick > entry.done:
            return mark.steps
    return report.end.steps


def run_of(report, source, arrivals, saved):
    """The run that a report tells of: its log, its variables, and its moments, as counts of records and steps."""
    life = interpret.Life(source)
    moments = [(0, 0)]

    def go_on(steps):
        while life.steps < steps and life.step():
            moments.append((len(life.log), life.steps))

    told = [entry.steps for entry in saved.ran()] if saved else []
    for number, entry in enumerate(report.ran()):
        go_on(told[number] if number < len(told) else steps_before(entry, report))
        life.serve(entry.name, entry.version, arrivals[entry.name][entry.index][1], (entry.name, entry.index))
        moments.append((len(life.log), life.steps))
    go_on(report.end.steps)
    return life, moments


def faults_of(report, files, saved=None):
    """What a report says that its guarantee excludes. Where it is one of `resume`, `saved` is the image from which it goes on."""
    faults = []
    events = generate.events_of(files["source"])
    trace = generate.rows_of(files["trace"])
    arrivals = {event.name: generate.kept(event, generate.rows_of(files["arrivals"]), trace) for event in events}
    before = set(report.log[: len(saved.records)]) if saved else set()
    begin, tick = ((saved.slot.length, saved.slot.steps), saved.tick) if saved else ((0, 0), 0)
    if {entry for entry in report.ran() if entry.done is None} != {entry for entry in before if isinstance(entry, generate.Ran)}:
        return ["other events ran before than the image tells"]
    for event in events:
        ran = [entry for entry in report.ran() if entry.name == event.name]
        if [entry.index for entry in ran] != list(range(len(ran))) or len(ran) > len(arrivals[event.name]):
            return [f"{event.name} ran as {[entry.index for entry in ran]}"]
        for entry in ran:
            done = entry.started + 1 if entry.done is None else entry.done
            word = "before" if entry.done is None else "met" if done <= entry.arrived + event.deadline else "late"
            if (entry.version, entry.word) != (report.versions[event.name].version, word):
                faults.append(f"wrong version or word: {entry}")
            if entry.arrived != arrivals[event.name][entry.index][0] or not entry.arrived <= entry.started < done <= report.end.tick:
                faults.append(f"wrong ticks: {entry}")
            if saved and (entry.started < tick) != (entry.done is None):
                faults.append(f"wrong side of tick {tick}: {entry}")
    life, moments = run_of(report, files["source"], arrivals, saved)
    log = [tuple(entry[:2]) for entry in report.log]
    if (life.log, life.steps, life.variables) != (log, report.end.steps, report.vars):
        faults.append(f"no run: it has {life.log[-3:]}, {life.steps} and {life.variables}")
    if begin not in moments:
        return [*faults, f"no moment of the run: the image's {begin}"]
    place = moments.index(begin)
    for mark in report.marks:
        if mark.tick <= tick:
            faults.append(f"not later than the line before: {mark}")
        tick = mark.tick
        if mark.kind != "lost":
            if (mark.records, mark.steps) not in moments[place:]:
                faults.append(f"no moment of the run from the line before on: {mark}")
                break
            place = moments.index((mark.records, mark.steps), place)
    struck = {row[0] for row in generate.rows_of(files["failures"])}
    if are_bounded(files):
        faults += [f"lost without a failure: {mark}" for mark in report.marks if mark.kind == "lost" and mark.tick - 1 not in struck]
    return faults


def are_bounded(files):
    """Whether operations draw their bounds at most."""
    costs = re.findall(r"bound = (\d+)\nactual = (\d+)", files["device"])
    most = max([row[2] for row in generate.rows_of(files["trace"])], default=0)
    return all(int(actual) + most <= int(bound) for bound, actual in costs)
