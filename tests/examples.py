#!/usr/bin/env python3
"""Replays each example with a built program, and compares with its report.

usage: tests/examples.py PROGRAM [NAME..]

An example is a folder examples/NAME with the files NAME.cat, NAME.toml, trace.csv, arrivals.csv, failures.csv and
report.txt: the report that the program must write when it replays the others, byte for byte, by the forecast in
forecast.csv where there is one. The status must be 12
where the report says that the log was full, and else 0. The last line is 'N passed, M failed'.
"""
import os
import subprocess
import sys

EXAMPLES = os.path.join(os.path.dirname(os.path.dirname(os.path.abspath(__file__))), "examples")
SECONDS = 600  # a machine may be busy


def fault_of(program, name):
    """Replays one example, and says what is wrong with its report, or nothing."""
    folder = os.path.join(EXAMPLES, name)
    words = [f"{name}.cat", f"{name}.toml", "trace.csv", "arrivals.csv", "failures.csv"]
    if os.path.exists(os.path.join(folder, "forecast.csv")):
        words.append("forecast.csv")
    lacking = [word for word in [*words, "report.txt", "README.md"] if not os.path.isfile(os.path.join(folder, word))]
    if lacking:
        return f"lacks {', '.join(lacking)}"
    run = subprocess.run([program, "replay", *words], cwd=folder, capture_output=True, timeout=SECONDS)
    with open(os.path.join(folder, "report.txt"), "rb") as file:
        report = file.read()
    is_full = any(line.startswith(b"end ") and line.endswith(b" log") for line in report.splitlines())
    if run.stdout != report:
        pairs = enumerate(zip(run.stdout.splitlines() + [b""], report.splitlines() + [b""]), 1)
        line = next((f"line {at} is {got!r}, wanted {want!r}" for at, (got, want) in pairs if got != want), "its length")
        return f"another report: {line}"
    if run.returncode != (12 if is_full else 0):
        return f"status {run.returncode}"
    if run.stderr:
        return f"wrote to standard error: {run.stderr[:200]!r}"
    return None


def main():
    words = sys.argv[1:]
    if not words or words[0] in ("-h", "--help"):
        print(__doc__)
        sys.exit(0 if words else 2)
    program = os.path.abspath(words[0])
    names = words[1:] or sorted(name for name in os.listdir(EXAMPLES) if os.path.isdir(os.path.join(EXAMPLES, name)))
    failed = 0
    for name in names:
        fault = fault_of(program, name)
        if fault:
            failed += 1
            print(f"example {name}: {fault}")
    print(f"examples: {len(names) - failed} passed, {failed} failed")
    sys.exit(1 if failed or not names else 0)


main()
