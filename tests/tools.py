#!/usr/bin/env python3
"""Tests tools/ and editors/ with a built program, and the launcher ./catnap with an rt that only pretends to prove. No display
is needed.

usage: tests/tools.py PROGRAM

Where matplotlib, GNU Parallel or Vim is missing, what needs it is skipped, and a line says so. The last line is
'tools: N passed, M failed, K skipped'.
"""
import csv
import functools
import importlib.machinery
import importlib.util
import json
import os
import random
import re
import shutil
import signal
import subprocess
import sys
import tempfile
import time
import xml.etree.ElementTree

TOP = os.path.dirname(os.path.dirname(os.path.abspath(__file__)))
TOOLS, EXAMPLES = os.path.join(TOP, "tools"), os.path.join(TOP, "examples")
HEADER = "ticks,harvest,extra,sample\n"
SECONDS = 600  # a machine may be busy


class Skip(Exception):
    """What a test needs and this machine lacks."""


def tool(name, *words, folder=None, python=None):
    return subprocess.run([python or sys.executable, os.path.join(TOOLS, name), *words], cwd=folder, capture_output=True, text=True, timeout=SECONDS)


@functools.cache
def drawing_python():
    for python in dict.fromkeys([sys.executable, "/usr/bin/python3"]):
        if os.path.exists(python) and not subprocess.run([python, "-c", "import matplotlib"], capture_output=True).returncode:
            return python
    raise Skip("matplotlib")


def module(name):
    """A tool as a module, for what it computes."""
    loader = importlib.machinery.SourceFileLoader(name, os.path.join(TOOLS, name))
    sys.path.insert(0, TOOLS)
    made = importlib.util.module_from_spec(importlib.util.spec_from_loader(name, loader))
    sys.dont_write_bytecode = True
    loader.exec_module(made)
    return made


def same(got, want):
    assert got == want, f"{got!r}, wanted {want!r}"


def ok(run):
    assert run.returncode == 0 and "Traceback" not in run.stderr, f"status {run.returncode}: {run.stderr[-400:]}"
    return run


def refused(run, *words):
    """A tool that can't go on says why in one line, with these words."""
    assert run.returncode == 1 and run.stderr.count("\n") == 1 and all(word in run.stderr for word in words), f"status {run.returncode}, {run.stderr[-400:]!r}, wanted {words}"


def write(folder, name, text):
    path = os.path.join(folder, name)
    with open(path, "w", newline="") as file:
        file.write(text)
    return path


def read(*path):
    with open(os.path.join(*path), newline="") as file:
        return file.read()


# help


def test_each_tool_has_help(program, folder):
    for name in ("trace", "guarantee", "picture", "sweep", "lint"):
        run = ok(tool(name, "--help"))
        assert "usage" in run.stdout, name
    for name in ("prepare", "run", "slice", "job", "collect", "plot"):
        ok(tool("sweep", name, "--help"))


# tools/trace


def test_trace_by_hand(program, folder):
    # 3 uW for 10 s, then 0: 30 uJ. In rows of 4 ticks: 12 units, 12, and the last two ticks have 6; nothing is held back
    path = write(folder, "power.csv", "t,p\n0,3\n10,0\n20,0\n")
    same(ok(tool("trace", path, "--between", "hold", "--row", "4")).stdout, HEADER + "8,3,0,0\n4,1,0,0\n8,0,0,0\n")
    # a straight line from 4 uW down to 0 in 4 s: 3.5, 6, 7.5, 8 units after each second, so 3, 3, 1 and 1 whole ones
    path = write(folder, "power.csv", "t,p\n0,4\n4,0\n")
    same(ok(tool("trace", path, "--row", "1")).stdout, HEADER + "2,3,0,0\n2,1,0,0\n")
    # 0.5 uW: a row of 3 ticks has 1.5 units, and can't give one a tick; the second has 3, and gives them
    path = write(folder, "power.csv", "t,p\n0,0.5\n12,0.5\n")
    same(ok(tool("trace", path, "--row", "3")).stdout, HEADER + "3,0,0,0\n3,1,0,0\n3,0,0,0\n3,1,0,0\n")


def test_trace_units_times_and_samples(program, folder):
    path = write(folder, "power.csv", "when,unused,mW,C\n2026-05-01T06:00:00+02:00,x,2,-0.26\n2026-05-01T04:00:10Z,x,2,1.25\n2026-05-01T06:00:20+02:00,x,-1,9\n")
    run = ok(tool("trace", path, "--time-unit", "iso", "--power-column", "mW", "--power-unit", "mW", "--tick", "100ms", "--unit", "10uJ", "--efficiency", "0.5", "--between", "hold", "--sample-column", "4", "--sample-scale", "10", "--extra", "2"))
    # half of 2 mW is 100 uJ in a tenth of a second: 10 units a tick
    same(run.stdout, HEADER + "100,10,2,-3\n100,10,2,13\n")
    assert "taken as 0: 1 times" in run.stderr


def test_trace_makes_no_energy(program, folder):
    fixed = random.Random(5)
    for _ in range(4):
        times = sorted(fixed.sample(range(1, 400), 12))
        text = "t,p\n" + "".join(f"{at - times[0]},{fixed.randrange(0, 60) / 10}\n" for at in times)
        path, row = write(folder, "power.csv", text), fixed.randrange(1, 20)
        rows = list(csv.reader(ok(tool("trace", path, "--row", str(row))).stdout.splitlines()))[1:]
        measured = [(float(t), float(p)) for t, p in list(csv.reader(text.splitlines()))[1:]]
        same(sum(int(ticks) for ticks, *_ in rows), times[-1] - times[0])
        # at each tick at which a row may end, what was given is at most what was measured, and less than a row behind
        ends, given, tick = {}, 0, 0
        for ticks, harvest, *_ in rows:
            for _ in range(int(ticks)):
                tick, given = tick + 1, given + int(harvest)
                ends[tick] = given
        for tick, given in ends.items():
            if tick % row == 0 or tick == times[-1] - times[0]:
                energy = 0
                for (a, p), (b, r) in zip(measured, measured[1:]):
                    part = min(max(tick - a, 0), b - a)
                    energy += p * part + (r - p) / (b - a) * part * part / 2
                assert energy - row - 1.01 < given <= energy + 1e-6, (tick, given, energy, row)


def test_trace_refuses(program, folder):
    refused(tool("trace", os.path.join(folder, "none.csv")), "none.csv", "can't be read")
    path = write(folder, "power.csv", "t,p\n0,1\n5,x\n")
    refused(tool("trace", path), "line 3", "'x'")
    refused(tool("trace", path, "--power-column", "watts"), "watts", "t, p")
    refused(tool("trace", write(folder, "power.csv", "t,p\n5,1\n5,1\n")), "line 3", "not after")
    refused(tool("trace", write(folder, "power.csv", "t,p\n0,1\n")), "two measurements")
    refused(tool("trace", write(folder, "power.csv", "t,p\n0,1\n2000000,1\n")), "ticks", "--tick")
    refused(tool("trace", path, "--tick", "3"), "--tick", "'3'")
    refused(tool("trace", write(folder, "power.csv", "t,p\n0,3\n5,3\n"), "--unit", "1pJ"), "--unit")


def test_trace_of_the_greenhouse(program, folder):
    run = ok(tool("trace", os.path.join(EXAMPLES, "greenhouse", "power.csv"), "--time-unit", "iso", "--efficiency", "0.75", "--sample-column", "air_C", "--sample-scale", "10"))
    same(run.stdout, read(EXAMPLES, "greenhouse", "trace.csv"))


def test_guarantee_is_the_least(program, folder):
    fixed = random.Random(7)
    for _ in range(3):
        rows = [(fixed.randrange(1, 9), fixed.randrange(0, 4)) for _ in range(8)]
        ticks = [harvest for length, harvest in rows for _ in range(length)]
        path = write(folder, "trace.csv", HEADER + "".join(f"{length},{harvest},0,0\n" for length, harvest in rows))
        lengths = [1, 5, len(ticks)]
        want = "".join(f"p {p} q {min(sum(ticks[at : at + p]) for at in range(len(ticks) - p + 1))}\n" for p in lengths)
        same(ok(tool("guarantee", path, *map(str, lengths))).stdout, want)
    refused(tool("guarantee", path, "1000"), "fewer than 1000 ticks")
    refused(tool("guarantee", os.path.join(EXAMPLES, "soil", "arrivals.csv"), "5"), "header")


# tools/picture


def example_words(name, report=None):
    folder = os.path.join(EXAMPLES, name)
    files = [("--trace", "trace.csv"), ("--arrivals", "arrivals.csv"), ("--failures", "failures.csv"), ("--source", f"{name}.cat")]
    return [report or os.path.join(folder, "report.txt"), *(part for flag, file in files for part in (flag, os.path.join(folder, file)))]


def texts_of(path):
    """The texts of an SVG file, which has to be one."""
    root = xml.etree.ElementTree.parse(path).getroot()
    same(root.tag, "{http://www.w3.org/2000/svg}svg")
    return ["".join(text.itertext()).strip() for text in root.iter("{http://www.w3.org/2000/svg}text")]


def test_picture_of_examples(program, folder):
    python = drawing_python()
    for name, lanes in (("soil", ["measure", "button", "out 2", "out 9"]), ("door", ["open", "tamper", "alive", "out 1", "out 2", "out 5"])):
        out = os.path.join(folder, f"{name}.svg")
        ok(tool("picture", *example_words(name), "-o", out, python=python))
        texts, report = texts_of(out), read(EXAMPLES, name, "report.txt")
        for text in [f"{name}.cat", "harvest", "power", "boot", "commit", "lost", *lanes]:
            assert text in texts, f"{name}: {text!r} is not in the picture"
        met, late, dropped = (len(re.findall(form, report, re.M)) for form in (r"^ran .* met$", r"^ran .* late$", r"^dropped "))
        assert any(text.startswith(f"{met} met, {late} late, {dropped} dropped, 0 waiting") for text in texts), texts


def test_picture_of_many_events(program, folder):
    python, lines, log = drawing_python(), [], []
    for at in range(10_000):
        word = "late" if at % 7 == 0 else "met"
        lines += [f"boot {at * 90 + 12} {2 * at} 0", f"commit {at * 90 + 20} {2 * at + 2} 0"]
        log += [f"out 4 {at % 100}", f"ran tick {at} 0 {at * 90} {at * 90 + 10} {at * 90 + 20} {word}"]
    report = write(folder, "report.txt", "version tick 0 units 1 ticks 1\n" + "\n".join([*lines, *log]) + "\nend 900000 5 0 trace\n")
    files = [write(folder, "many.cat", "event tick every 90 offset 0 deadline 15 { out 4, payload; }\n"), write(folder, "trace.csv", HEADER + "450000,2,0,0\n450000,1,0,0\n")]
    files += [write(folder, "arrivals.csv", "tick,event,payload\n"), write(folder, "failures.csv", "tick,fill\n")]
    out = os.path.join(folder, "many.svg")
    words = [part for pair in zip(("--source", "--trace", "--arrivals", "--failures"), files) for part in pair]
    ok(tool("picture", report, *words, "-o", out, python=python))
    texts = " | ".join(texts_of(out))
    for text in ("8571 met, 1429 late", "counted in columns of 4500 ticks, at most 50 in one", "10000 values in columns of 4500 ticks", "boot: at most 50"):
        assert text in texts, f"{text!r} is not among {texts}"
    assert os.path.getsize(out) < 1_000_000


def test_picture_reads_when_records_were_committed(program, folder):
    made = module("picture")
    # the gate's write was lost and has committed: no commit line for records 1 and 2, but the event's line says when
    report = "commit 10 1 0\nlost 20\nboot 30 3 0\ncommit 40 4 0\nout 1 5\nout 1 6\nran e 0 0 15 15 20 met\nout 1 7\nend 50 1 0 trace\n"
    same(made.Report(write(folder, "report.txt", report)).when, [10, 20, 20, 40])
    # where tasks alone were committed so, the boot that finds the record
    report = "commit 10 1 0\nlost 20\nboot 30 2 4\nout 1 5\nout 1 6\nend 50 1 4 trace\n"
    same(made.Report(write(folder, "report.txt", report)).when, [10, 30])
    # what ran before a saved image has no tick: its start stands for it
    report = "boot 30 2 0\ncommit 40 4 0\nout 1 5\nran e 0 0 15 16 - before\nout 1 6\nran e 1 0 25 28 40 met\nend 50 1 0 trace\n"
    same(made.Report(write(folder, "report.txt", report)).when, [16, 16, 40, 40])


def test_picture_refuses(program, folder):
    python, out = drawing_python(), os.path.join(folder, "out.svg")
    refused(tool("picture", *example_words("soil", os.path.join(TOP, "README.md")), "-o", out, python=python), "README.md", "line 1")
    refused(tool("picture", *example_words("soil"), "-o", os.path.join(folder, "out.gif"), python=python), ".svg", "out.gif")
    words = example_words("soil")
    words[-1] = os.path.join(EXAMPLES, "door", "door.cat")
    refused(tool("picture", *words, "-o", out, python=python), "door.cat", "no event")
    assert not os.path.exists(out)


def test_picture_of_the_readme_is_that_of_its_node(program, folder):
    python, out = drawing_python(), os.path.join(folder, "node.svg")
    files = [os.path.join(EXAMPLES, name) for name in ("node.cat", "node.toml", "node-trace.csv", "node-arrivals.csv", "node-failures.csv")]
    report = write(folder, "report.txt", subprocess.run([program, "replay", *files], capture_output=True, text=True).stdout)
    words = [part for pair in zip(("--source", "--trace", "--arrivals", "--failures"), [files[0], *files[2:]]) for part in pair]
    ok(tool("picture", report, *words, "-o", out, python=python))
    same(texts_of(os.path.join(TOP, "docs", "pictures", "node.svg")), texts_of(out))


def test_missing_package_is_named(program, folder):
    write(folder, "matplotlib.py", "raise ImportError\n")
    run = subprocess.run([sys.executable, os.path.join(TOOLS, "picture"), *example_words("soil"), "-o", "x.svg"], env={**os.environ, "PYTHONPATH": folder, "CATNAP_TOOLS_TRIED_SYSTEM_PYTHON": "1"}, capture_output=True, text=True)
    refused(run, "matplotlib", "apt-get install python3-matplotlib")
    write(folder, "plan.json", "{}")
    run = subprocess.run([sys.executable, os.path.join(TOOLS, "sweep"), "run", folder], env={**os.environ, "PATH": folder}, capture_output=True, text=True)
    refused(run, "parallel", "apt-get install parallel")


# tools/sweep


def sweep_of(folder, vary, *more):
    files = "".join(f'{name} = "{os.path.join(EXAMPLES, "soil", file)}"\n' for name, file in (("source", "soil.cat"), ("device", "soil.toml"), ("trace", "trace.csv"), ("arrivals", "arrivals.csv"), ("failures", "failures.csv")))
    return write(folder, "sweep.toml", files + "".join(more) + "[vary]\n" + vary)


def test_sweep_by_slices(program, folder):
    path = sweep_of(folder, 'q = [20000, 45000]\n"wake.actual" = { from = 700, to = 800, step = 50 }\n', "[set]\nstart = 40000\n")
    out = os.path.join(folder, "out")
    same(ok(tool("sweep", "prepare", path, out, "--program", program)).stdout, f"6 jobs in {out}/jobs.txt\n")
    ok(tool("sweep", "slice", out, "1", "2"))
    assert "3 of 6 jobs done" in ok(tool("sweep", "collect", out)).stdout
    ok(tool("sweep", "slice", out, "0", "1"))
    assert "6 of 6 jobs done, 3 refused" in ok(tool("sweep", "collect", out)).stdout
    rows = list(csv.DictReader(read(out, "results.csv").splitlines()))
    same([(row["job"], row["q"], row["wake.actual"]) for row in rows], [(str(n), q, w) for n, (q, w) in enumerate((q, w) for q in ("20000", "45000") for w in ("700", "750", "800"))])
    same([row["refusal"] for row in rows[:3]], ["fault rejected F1 33894 20000"] * 3)
    # a row says what the report of the same files says
    text = read(EXAMPLES, "soil", "soil.toml").replace("start = 20000", "start = 40000").replace("actual = 700", "actual = 800")
    words = [os.path.join(EXAMPLES, "soil", name) for name in ("soil.cat", "trace.csv", "arrivals.csv", "failures.csv")]
    words.insert(1, write(folder, "device.toml", text))
    report = subprocess.run([program, "replay", *words], capture_output=True, text=True).stdout
    counts = [len(re.findall(form, report, re.M)) for form in (r"^ran .* met$", r"^ran .* late$", "^dropped ", "^boot ", "^lost ")]
    want = ["0", *map(str, counts), re.search(r"^end \d+ (\d+)", report, re.M)[1], ""]
    same([rows[5][name] for name in ("status", "met", "late", "dropped", "boots", "lost", "store", "refusal")], want)
    # the same sweep again is the same folder; another one is refused
    ok(tool("sweep", "prepare", path, out, "--program", program))
    refused(tool("sweep", "prepare", sweep_of(folder, "q = [1]\n"), out, "--program", program), "another sweep")


def test_sweep_refuses(program, folder):
    out = os.path.join(folder, "out")
    for vary, words in (("qq = [1]\n", ["'qq'"]), ("q = []\n", ["q has to be varied"]), ("q = [1, 1]\n", ["twice"]), ('q = ["x"]\n', ["'x'"]), ('trace = ["no.csv"]\n', ["no.csv"]), ("q = { from = 1, to = 2 }\n", ["range"]), ("q = [\n", ["no TOML"])):
        refused(tool("sweep", "prepare", sweep_of(folder, vary), out, "--program", program), *words)
    refused(tool("sweep", "collect", folder), "no sweep")
    assert not os.path.exists(out)


def test_sweep_is_killed_and_goes_on(program, folder):
    if not shutil.which("parallel"):
        raise Skip("GNU parallel")
    calls = os.path.join(folder, "calls")
    counting = write(folder, "counting", f'#!/bin/sh\ngrep "^q = " "$3" >> {calls}\nsleep 0.05\nexec {program} "$@"\n')
    os.chmod(counting, 0o755)
    path, out = sweep_of(folder, "q = { from = 45000, to = 45059, step = 1 }\n"), os.path.join(folder, "out")
    ok(tool("sweep", "prepare", path, out, "--program", counting))
    words = [sys.executable, os.path.join(TOOLS, "sweep"), "run", out, "--jobs", "4"]
    first = subprocess.Popen(words, start_new_session=True, stdout=subprocess.DEVNULL, stderr=subprocess.DEVNULL)
    results = os.path.join(out, "results")
    until = time.monotonic() + SECONDS
    while len(os.listdir(results)) < 8 and time.monotonic() < until:
        time.sleep(0.02)
    os.killpg(first.pid, signal.SIGKILL)
    first.wait()
    time.sleep(0.3)
    done, before = set(os.listdir(results)), read(calls).splitlines()
    assert 8 <= len(done) < 60, f"{len(done)} of 60 jobs were done when it was killed"
    run = subprocess.run(words, capture_output=True, text=True, timeout=SECONDS)
    assert "60 of 60 jobs done, 0 refused" in ok(run).stdout
    same([row["q"] for row in csv.DictReader(read(out, "results.csv").splitlines())], [str(q) for q in range(45000, 45060)])
    # nothing that was done is done again: only calls that the kill cut off are repeated
    after = read(calls).splitlines()[len(before) :]
    again = {f"q = {45000 + int(name[:-4])}" for name in done if name.endswith(".csv")} & set(after)
    same(again, set())


def test_plots(program, folder):
    python = drawing_python()
    out = os.path.join(folder, "out")
    ok(tool("sweep", "prepare", sweep_of(folder, 'q = [20000, 45000]\n"wake.actual" = [700, 800]\n'), out, "--program", program))
    ok(tool("sweep", "slice", out, "0", "1"))
    ok(tool("sweep", "collect", out))
    for words, wanted in ((["--by", "q"], ["q", "met", "mean", "20000", "45000", "met of 4 jobs"]), (["--by", "wake.actual", "--against", "q", "--value", "boots"], ["wake.actual", "q", "boots (grey: refused)"])):
        path = os.path.join(folder, "plot.svg")
        ok(tool("sweep", "plot", out, *words, "-o", path, python=python))
        texts = texts_of(path)
        for text in wanted:
            assert text in texts, f"{text!r} is not among {texts}"
    refused(tool("sweep", "plot", out, "--by", "cap", "-o", path, python=python), "cap")


def test_lint(program, folder):
    good, bad = os.path.join(EXAMPLES, "node.cat"), write(folder, "bad.cat", "int x = 0;\nint y = $;\n")
    same(ok(tool("lint", good, "--program", program)).stdout, "")
    run = tool("lint", bad, "--program", program)
    assert run.returncode == 1 and re.fullmatch(re.escape(bad) + r":\d+:\d+: error: BadByte\n", run.stdout), run
    # a place is a byte of the source: today's line has none, and leads to the beginning
    for line, place in (("fault source BadByte", "1:1"), ("fault source BadByte 19", "2:9"), ("fault source Syntax 22", "3:1"), ("fault source Syntax 9999", "3:1")):
        answering = write(folder, "answering", f'#!/bin/sh\necho "{line}"\nexit 5\n')
        os.chmod(answering, 0o755)
        same(tool("lint", bad, "--program", answering).stdout, f"{bad}:{place}: error: {line.split()[2]}\n")


# editors


def test_editors_know_the_language(program, folder):
    keywords = set(re.search(r"^\| keyword \| one of `([a-z ]+)` \|$", read(TOP, "docs", "LANGUAGE.md"), re.M)[1].split())
    vim = {word for line in re.findall(r"^syntax keyword catnap(?!Todo)\w+ (.*)$", read(TOP, "editors", "vim", "syntax", "catnap.vim"), re.M) for word in line.split()}
    same(vim, keywords)
    folder = os.path.join(TOP, "editors", "vscode")
    grammar = json.loads(read(folder, "syntaxes", "catnap.tmLanguage.json"))
    for word in keywords:
        names = [rule["name"] for rule in grammar["patterns"] if "name" in rule and re.fullmatch(rule["match"], word)]
        assert names and not names[0].startswith("invalid"), word
    json.loads(read(folder, "language-configuration.json"))
    pattern = json.loads(read(folder, "package.json"))["contributes"]["problemMatchers"][0]["pattern"]
    found = re.fullmatch(pattern["regexp"], "a b/node.cat:12:5: error: BadByte")
    same([found[pattern[name]] for name in ("file", "line", "column", "severity", "message")], ["a b/node.cat", "12", "5", "error", "BadByte"])


def test_vim_jumps_to_the_byte(program, folder):
    if not shutil.which("vim"):
        raise Skip("vim")
    source = write(folder, "a node.cat", "int x = 0;\nint y = $;\n")
    answering = write(folder, "answering", "#!/bin/sh\necho fault source BadByte 19\nexit 5\n")
    os.chmod(answering, 0o755)
    out = os.path.join(folder, "out")
    steps = [f"set runtimepath+={TOP}/editors/vim", "filetype plugin indent on", "syntax on", f"edit {source.replace(' ', chr(92) + ' ')}", f"let &makeprg .= ' --program {answering}'"]
    steps += ["silent make", f"call writefile([&filetype, synIDattr(synID(1, 1, 1), 'name'), line('.') . ' ' . col('.')], '{out}')", "qa!"]
    subprocess.run(["vim", "-e", "-s", "-u", "NONE", "-i", "NONE", "-N", *(part for step in steps for part in ("-c", step))], capture_output=True, timeout=SECONDS, stdin=subprocess.DEVNULL)
    same(read(out), "catnap\ncatnapType\n2 9\n")


# ./catnap

FAKE_RT = """#!{python}
import os, sys, time
top, words = {top!r}, sys.argv[1:]
crates = ("low", "mid", "catnap_cli")
with open(os.path.join(top, "calls"), "a") as file:
    file.write(" ".join(words[:2]) + "\\n")
if words[:2] == ["all", "check"]:
    bad = set()
    for crate in crates:
        time.sleep({slow})
        with open(os.path.join(top, "crates", crate, "src", "lib.rt")) as file:
            if "BAD" in file.read():
                bad.add(crate)
        print(f"== {{crate}}\\n" + (f"what is wrong in {{crate}}" if crate in bad else "proved=yes"), flush=True)
    print("== summary", *(f"{{crate}}: " + ("failed (1)" if crate in bad else "ok") for crate in crates), sep="\\n")
    sys.exit(1 if bad else 0)
if words == ["run"]:
    os.makedirs("out", exist_ok=True)
    with open("out/catnap_cli", "w") as file:
        file.write("#!/bin/sh\\n[ $# = 0 ] && {{ echo fault usage; exit 2; }}\\necho ran $*\\n")
    os.chmod("out/catnap_cli", 0o755)
    open("out/catnap_cli.stamp", "w").close()
    print("fault usage")
    sys.exit(2)
print("tried", *words[words.index("--") + 1 :])
"""


class Launched:
    """A copy of the launcher beside three small crates, and an rt that notes its calls."""

    def __init__(self, folder, slow=0.0):
        self.top, self.bin = folder, os.path.join(folder, "bin")
        shutil.copy(os.path.join(TOP, "catnap"), folder)
        for crate in ("low", "mid", "catnap_cli"):
            os.makedirs(os.path.join(folder, "crates", crate, "src"))
            self.edit(crate, "as it was\n")
        write(folder, "crates.txt", "low:\nmid: low  # a remark\ncatnap_cli: mid low\n")
        os.makedirs(self.bin)
        os.chmod(write(self.bin, "rt", FAKE_RT.format(python=sys.executable, top=folder, slow=slow)), 0o755)

    def edit(self, crate, text):
        write(os.path.join(self.top, "crates", crate, "src"), "lib.rt", text)

    def begin(self, *words):
        env = {**os.environ, "PATH": f"{self.bin}:{os.environ['PATH']}"}
        return subprocess.Popen([sys.executable, os.path.join(self.top, "catnap"), *words], env=env, stdout=subprocess.PIPE, stderr=subprocess.PIPE, text=True, start_new_session=True)

    def call(self, *words):
        """The status, the output and the messages of a call, and the calls of rt in it."""
        path = os.path.join(self.top, "calls")
        write(self.top, "calls", "")
        child = self.begin(*words)
        out, said = child.communicate(timeout=SECONDS)
        assert "Traceback" not in said, said
        return child.returncode, out, said, read(path).splitlines()


def test_launcher_builds_when_contents_changed(program, folder):
    made, whole = Launched(folder), ["all check", "run"]
    status, out, said, calls = made.call("list", "x.cat")
    same((status, out, calls), (0, "ran list x.cat\n", whole))
    same(len(re.findall(r"^catnap: \d of 3 crates done", said, re.M)), 3)
    same(made.call("a"), (0, "ran a\n", "", []))
    lib = os.path.join(folder, "crates", "low", "src", "lib.rt")
    os.utime(lib)  # as a change of branch and back does
    made.edit("mid", "another text\n")
    made.edit("mid", "as it was\n")
    same(made.call("a"), (0, "ran a\n", "", []))
    made.edit("mid", "another text\n")
    same(made.call("a")[3], whole)
    write(os.path.join(folder, "crates", "low", "src"), "more.rt", "")
    same(made.call("a")[3], whole)
    # a program that is not whole is not run
    write(os.path.join(folder, "crates", "catnap_cli", "out"), "catnap_cli", "#!/bin/sh\n")
    same(made.call("a")[1], "ran a\n")
    # what rt has built by itself after the last edit, as the gate does, is only looked at
    os.remove(os.path.join(folder, "crates", "catnap_cli", "out", "catnap_cli.made"))
    same(made.call("a")[3], ["run"])


def test_launcher_says_what_is_not_proved(program, folder):
    made = Launched(folder)
    made.call("a")
    made.edit("mid", "BAD\n")
    for _ in range(2):
        status, out, said, calls = made.call("a")
        same((status, out, calls), (1, "", ["all check"]))
        assert "what is wrong in mid" in said and "mid: failed (1)" in said and "--unproved" in said, said
    made.edit("mid", "good again\n")
    same(made.call("a")[:2], (0, "ran a\n"))


def test_launcher_is_stopped_and_goes_on(program, folder):
    made = Launched(folder, slow=0.4)
    for number, status in ((signal.SIGINT, 130), (signal.SIGTERM, 143)):
        child = made.begin("a")
        line = child.stderr.readline() + child.stderr.readline()
        assert "1 of 3 crates done" in line, line
        os.killpg(child.pid, number) if number == signal.SIGINT else child.send_signal(number)
        out, said = child.communicate(timeout=SECONDS)
        same((child.returncode, out, "Traceback" in said), (status, "", False))
        assert not os.path.exists(os.path.join(folder, "crates", "catnap_cli", "out", "catnap_cli"))
    same(made.call("a")[:2], (0, "ran a\n"))


def test_launcher_words(program, folder):
    made = Launched(folder)
    status, out, said, calls = made.call("--unproved", "run", "x.cat", "5")
    same((status, out, said.count("unproved")), (0, "tried run x.cat 5\n", 1))
    assert "./catnap --unproved" in made.call("--help")[1]
    os.remove(os.path.join(made.bin, "rt"))
    env = {**os.environ, "PATH": made.bin}
    run = subprocess.run([sys.executable, os.path.join(folder, "catnap"), "a"], env=env, capture_output=True, text=True)
    refused(run, "'rt'", "PATH")


def main():
    words = sys.argv[1:]
    if len(words) != 1 or words[0] in ("-h", "--help"):
        print(__doc__)
        sys.exit(0 if words else 2)
    program, counts, missing = os.path.abspath(words[0]), {"passed": 0, "failed": 0, "skipped": 0}, {}
    for name, test in [(name, it) for name, it in globals().items() if name.startswith("test_")]:
        try:
            with tempfile.TemporaryDirectory() as folder:
                test(program, folder)
            counts["passed"] += 1
        except Skip as lacking:
            counts["skipped"] += 1
            missing.setdefault(str(lacking), []).append(name)
        except (Exception, SystemExit) as fault:  # a test that fails says so, whatever it was
            counts["failed"] += 1
            print(f"{name}: {type(fault).__name__}: {fault}")
    for lacking, names in missing.items():
        print(f"tools: skipped for want of {lacking}: {', '.join(names)}")
    print("tools: " + ", ".join(f"{count} {word}" for word, count in counts.items()))
    sys.exit(1 if counts["failed"] or not counts["passed"] else 0)


main()
