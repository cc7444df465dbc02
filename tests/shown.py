#!/usr/bin/env python3
"""Runs each command that the pages show, and compares what it prints with what they show.

usage: tests/shown.py PROGRAM [PAGE..]

A command stands in a block that is indented by four spaces, or in a fenced block with the word sh. The lines up to the
first empty line are the commands, and what follows the empty line is what the last of them prints on standard output.
Only blocks whose first line begins with a word of RUN and that have no word in capitals, which stands for some file, are
run here; others prove, install or need other machines. In what is shown a line '..' stands for any lines, and what follows four spaces in a row
is a remark. A block with no such second part only has to end with no complaint.

A fenced block whose first line names a file of the repository behind its language, as ```toml examples/a.toml, has to be
that file, or lines of it that follow each other; '..' stands for any lines there too.

The pages are README.md, docs/GUIDE.md, docs/SWEEPS.md and others that show commands; they run in a copy of the examples
and tools, where ./catnap is PROGRAM. Pictures are skipped where matplotlib is missing, and a line says so; where GNU Parallel is
missing a sweep runs job after job. The last line is
'shown: N as shown, M not, K skipped'.
"""
import glob
import os
import re
import shutil
import subprocess
import sys
import tempfile

TOP = os.path.dirname(os.path.dirname(os.path.abspath(__file__)))
SECONDS = 900  # a machine may be busy
RUN = ("./catnap ", "tools/", "for ", "sed ", "cat ", "grep ", "head ", "tail ", "editors/")
TESTS = "./run-tests"
GENERAL = re.compile(r"(?<![$\w])[A-Z]{3,}\b")  # a word in capitals stands for some file or number
GAP = ".."


def pages():
    found = ["README.md", *sorted(glob.glob("docs/*.md", root_dir=TOP)), *sorted(glob.glob("examples/*/README.md", root_dir=TOP))]
    return [*found, *sorted(glob.glob("editors/README.md", root_dir=TOP))]


def blocks_of(text):
    """The blocks of a page: the words behind a fence, or None for an indented block, and the lines."""
    lines, at, found = text.splitlines(), 0, []
    while at < len(lines):
        if lines[at].startswith("```"):
            end = next((n for n in range(at + 1, len(lines)) if lines[n].startswith("```")), len(lines))
            found.append((lines[at][3:].split(), lines[at + 1 : end]))
            at = end + 1
        elif lines[at].startswith("    ") and (at == 0 or not lines[at - 1].strip()):
            end = at
            while end < len(lines) and (lines[end].startswith("    ") or not lines[end].strip()):
                end += 1
            found.append((None, [line[4:] for line in lines[at:end]]))
            at = end
        else:
            at += 1
    return found


def fits(shown, printed):
    """Says whether lines are those that are shown, where '..' stands for any lines."""
    parts = [[]]
    for line in shown:
        if line == GAP:
            parts.append([])
        else:
            parts[-1].append(line)
    if len(parts) == 1:
        return printed == shown
    first, last = parts[0], parts[-1]
    if printed[: len(first)] != first or len(printed) < len(first) + len(last) or printed[len(printed) - len(last) :] != last:
        return False
    at, end = len(first), len(printed) - len(last)
    for part in parts[1:-1]:  # each part where it stands first
        at = next((n + len(part) for n in range(at, end - len(part) + 1) if printed[n : n + len(part)] == part), None)
        if at is None:
            return False
    return True


def without_remark(line):
    return re.split(r"\s{4,}", line.rstrip())[0]


def commands_in(lines):
    """The commands of a block and what they print, or no commands where it shows something else."""
    while lines and not lines[-1].strip():
        lines = lines[:-1]
    cut = lines.index("") if "" in lines else len(lines)
    return lines[:cut], [line for line in lines[cut:] if line.strip()]


def python_with(package):
    """A Python that has a package: this one, or that of the system."""
    for python in dict.fromkeys([sys.executable, "/usr/bin/python3"]):
        if os.path.exists(python) and not subprocess.run([python, "-c", f"import {package}"], capture_output=True).returncode:
            return python
    return None


def lacks(command):
    """The package that a command needs and this machine lacks."""
    draws = "tools/picture" in command or "tools/sweep plot" in command
    return "matplotlib" if draws and not python_with("matplotlib") else None


def without_parallel(command):
    """Where GNU Parallel is missing a sweep is run by slices, which gathers the same."""
    return re.sub(r"tools/sweep run (\S+)", r"tools/sweep slice \1 0 1 && tools/sweep collect \1", command)


def fault_of(commands, shown, folder):
    if not shutil.which("parallel"):
        commands = [without_parallel(command) for command in commands]
    script = "set -e\n" + "\n".join(without_remark(line) for line in commands[:-1])
    script += "\nset +e\n" + without_remark(commands[-1]) + "\n"
    run = subprocess.run(["sh", "-c", script], cwd=folder, capture_output=True, text=True, timeout=SECONDS)
    printed = [line.rstrip() for line in run.stdout.splitlines() if line.strip()]
    if "Traceback" in run.stderr or "fault usage" in printed:
        return f"it ended with {run.stderr[-300:] or 'fault usage'}"
    if not shown:
        return f"status {run.returncode}: {run.stderr[-300:]}" if run.returncode else None
    if not fits([without_remark(line) for line in shown], printed):
        return "it printed\n      " + "\n      ".join((printed or run.stderr.splitlines())[:40])
    return None


def copied(program, folder):
    """Makes the folder in which commands run: there the launcher and the program that it has built are PROGRAM."""
    for name in ("examples", "tools", "editors", "docs"):
        if os.path.isdir(os.path.join(TOP, name)):
            shutil.copytree(os.path.join(TOP, name), os.path.join(folder, name))
    built = os.path.join(folder, "crates", "catnap_cli", "out")
    os.makedirs(built)
    for path in (os.path.join(folder, "catnap"), os.path.join(built, "catnap_cli")):
        with open(path, "w") as file:
            file.write(f'#!/bin/sh\n[ "$1" = --unproved ] && shift\nexec {program} "$@"\n')
        os.chmod(path, 0o755)


def main():
    words = sys.argv[1:]
    if not words or words[0] in ("-h", "--help"):
        print(__doc__)
        sys.exit(0 if words else 2)
    program, counts, missing = os.path.abspath(words[0]), {"good": 0, "bad": 0, "skipped": 0}, set()
    for page in words[1:] or pages():
        with open(os.path.join(TOP, page)) as file:
            blocks = blocks_of(file.read())
        with tempfile.TemporaryDirectory() as folder:
            copied(program, folder)
            for fence, lines in blocks:
                fault = None
                if fence and len(fence) > 1:
                    with open(os.path.join(TOP, fence[1])) as file:
                        if not fits([GAP, *lines, GAP], file.read().splitlines()):
                            fault = f"is not as in {fence[1]}"
                    what = f"the block of {fence[1]}"
                else:
                    commands, shown = commands_in(lines)
                    if (fence and fence != ["sh"]) or not commands or not commands[0].startswith(RUN) or GENERAL.search(" ".join(commands)):
                        if commands and commands[0].startswith("./") and commands[0] != TESTS and not GENERAL.search(commands[0]):
                            print(f"shown: {page}: '{commands[0]}' is no command that this test knows")
                            counts["bad"] += 1
                        continue
                    lacking = next((name for name in map(lacks, commands) if name), None)
                    if lacking:
                        missing.add(lacking)
                        counts["skipped"] += 1
                        continue
                    fault = fault_of(commands, shown, folder)
                    what = f"'{commands[-1]}'"
                counts["bad" if fault else "good"] += 1
                if fault:
                    print(f"shown: {page}: {what}: {fault}")
    for name in sorted(missing):
        print(f"shown: skipped what needs {name}, which this machine lacks")
    print(f"shown: {counts['good']} as shown, {counts['bad']} not, {counts['skipped']} skipped")
    sys.exit(1 if counts["bad"] or not counts["good"] else 0)


main()
