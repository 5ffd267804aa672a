#!/usr/bin/env python3
"""Measures the built program, by counted instructions and by processor time.

  measure.py [--program PATH] [--only KIND] [--quick]

For each kind of scene (see scenes.py) it runs the program at n and at 2n, by `serial` or on threads by `run`; for `checking` it has the
report of a serial run of the scene `printing` checked. Instructions are those that callgrind counts, less
those of an empty scene; processor time is the least of five runs. It prints both at n and at 2n and their ratio: 2.0 is
linear. --quick leaves callgrind out. Run by hand: nothing here is a test."""
import argparse
import os
import re
import resource
import subprocess
import tempfile

HERE = os.path.dirname(os.path.abspath(__file__))
PROGRAM = os.path.join(HERE, "..", "crates", "trusty_main", "out", "trusty_main")
# kind, n, command, form
KINDS = [
    ("reading", 2_000_000, "serial", "summary"),
    ("printing", 50_000, "serial", "history"),
    ("checking", 20_000, "check", None),
    ("messages", 500, "serial", "summary"),
    ("messages", 500, "run", "summary"),
    ("bridge", 500, "serial", "summary"),
    ("members", 8, "serial", "summary"),
    ("members", 32, "serial", "summary"),
    ("actors", 8, "serial", "summary"),
    ("actors", 64, "serial", "summary"),
]


def scene(kind, n, folder):
    path = os.path.join(folder, f"{kind}_{n}.scene")
    with open(path, "wb") as out:
        subprocess.run(["python3", os.path.join(HERE, "scenes.py"), kind, str(n)], stdout=out, check=True)
    return path


def checked(program, n, folder):
    """A scene of n entries, with the report of its serial run behind it."""
    path = scene("printing", n, folder)
    with open(path, "rb") as stdin:
        report = subprocess.run([program, "serial"], stdin=stdin, stdout=subprocess.PIPE, check=True).stdout
    with open(path, "ab") as out:
        out.write(b"report\n" + report)
    return path


def words_of(program, command, form):
    return [program, command] + (["--form", form] if form else [])


def seconds(words, path):
    best = None
    for _ in range(5):
        before = resource.getrusage(resource.RUSAGE_CHILDREN)
        with open(path, "rb") as stdin:
            subprocess.run(words, stdin=stdin, stdout=subprocess.DEVNULL, check=True)
        after = resource.getrusage(resource.RUSAGE_CHILDREN)
        spent = after.ru_utime + after.ru_stime - before.ru_utime - before.ru_stime
        best = spent if best is None else min(best, spent)
    return best


def instructions(words, path, folder):
    out = os.path.join(folder, "callgrind.out")
    with open(path, "rb") as stdin:
        counted = ["valgrind", "--tool=callgrind", f"--callgrind-out-file={out}", *words]
        said = subprocess.run(counted, stdin=stdin, stdout=subprocess.DEVNULL, stderr=subprocess.PIPE, text=True, check=True).stderr
    return int(re.search(r"Collected : (\d+)", said)[1])


def main():
    parser = argparse.ArgumentParser(description=__doc__, formatter_class=argparse.RawDescriptionHelpFormatter)
    parser.add_argument("--program", default=PROGRAM)
    parser.add_argument("--only")
    parser.add_argument("--quick", action="store_true")
    given = parser.parse_args()
    program = given.program
    with tempfile.TemporaryDirectory() as folder:
        empty = 0 if given.quick else instructions(words_of(program, "serial", "summary"), scene("empty", 0, folder), folder)
        for kind, n, command, form in KINDS:
            if given.only and given.only != kind:
                continue
            words = words_of(program, command, form)
            one, two = (checked(program, count, folder) if command == "check" else scene(kind, count, folder) for count in (n, 2 * n))
            fast, slow = seconds(words, one), seconds(words, two)
            line = f"{kind}, {command}: processor time {fast:.3f} s at {n}, {slow:.3f} s at {2 * n}, ratio {slow / max(fast, 1e-6):.2f}"
            if not given.quick:
                few, many = (instructions(words, path, folder) - empty for path in (one, two))
                line += f"; instructions {few:,} at {n}, {many:,} at {2 * n}, ratio {many / max(few, 1):.2f}"
            print(line, flush=True)


main()
