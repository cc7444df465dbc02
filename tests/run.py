#!/usr/bin/env python3
"""Runs a built program on the rows of tests/rows.

usage: tests/run.py PROGRAM [ROW..]

A row is a folder. Its file `words` has the words of the call, one a line; `stdout` the bytes that it must write;
`status` the status it must end with, where that is not 0. Nothing may be written to standard error. All other
files are there for the call, which runs in a copy of the folder; a file NAME.make is a Python program whose
standard output becomes the file NAME, for inputs that are too long to keep. The last line is 'N passed, M failed'.
"""
import os
import shutil
import subprocess
import sys
import tempfile

ROWS = os.path.join(os.path.dirname(os.path.abspath(__file__)), "rows")
SECONDS = 120


def read(path, missing=b""):
    if not os.path.exists(path):
        return missing
    with open(path, "rb") as file:
        return file.read()


def make_inputs(folder):
    for name in sorted(os.listdir(folder)):
        if name.endswith(".make"):
            with open(os.path.join(folder, name[: -len(".make")]), "wb") as made:
                subprocess.run([sys.executable, os.path.join(folder, name)], stdout=made, check=True)


def fault_of(program, row):
    """Runs one row, and says what is wrong with its answer, or nothing."""
    source = os.path.join(ROWS, row)
    words = read(os.path.join(source, "words")).decode().splitlines()
    wanted = int(read(os.path.join(source, "status"), b"0"))
    with tempfile.TemporaryDirectory() as folder:
        shutil.copytree(source, folder, dirs_exist_ok=True)
        make_inputs(folder)
        run = subprocess.run([program, *words], cwd=folder, capture_output=True, timeout=SECONDS)
    text = read(os.path.join(source, "stdout"))
    if run.returncode != wanted:
        return f"status {run.returncode}, wanted {wanted}; it wrote {run.stdout[:200]!r}"
    if run.stdout != text:
        return f"wrote {run.stdout[:300]!r}, wanted {text[:300]!r}"
    if run.stderr:
        return f"wrote to standard error: {run.stderr[:200]!r}"
    return None


def main():
    if len(sys.argv) < 2:
        sys.exit(__doc__)
    program = os.path.abspath(sys.argv[1])
    rows = sys.argv[2:] or sorted(os.listdir(ROWS))
    failed = 0
    for row in rows:
        fault = fault_of(program, row)
        if fault:
            failed += 1
            print(f"row {row}: {fault}")
    print(f"{len(rows) - failed} passed, {failed} failed")
    sys.exit(1 if failed or not rows else 0)


main()
