#!/usr/bin/env python3
"""What one event of one member costs the ready lists.

  measure_sets.py [--program PATH]

Runs the program of crates/set_bench (built by `rt run` in its folder) under callgrind with no event and with 1,000, for one set of
one member and for 1,000 sets of 64 members each, and prints the instructions of one event in both and their ratio. Run by hand: nothing here
is a test, and nothing is built."""
import argparse
import os
import re
import subprocess
import tempfile

PROGRAM = os.path.join(os.path.dirname(os.path.abspath(__file__)), "..", "crates", "set_bench", "out", "set_bench")
EVENTS = 1_000


def instructions(program, folder, *numbers):
    out = os.path.join(folder, "callgrind.out")
    words = ["valgrind", "--tool=callgrind", f"--callgrind-out-file={out}", program, *(str(number) for number in numbers)]
    said = subprocess.run(words, stdout=subprocess.DEVNULL, stderr=subprocess.PIPE, text=True, check=True).stderr
    return int(re.search(r"Collected : (\d+)", said)[1])


def main():
    parser = argparse.ArgumentParser(description=__doc__, formatter_class=argparse.RawDescriptionHelpFormatter)
    parser.add_argument("--program", default=PROGRAM)
    program = parser.parse_args().program
    costs = []
    with tempfile.TemporaryDirectory() as folder:
        for sets, members in ((1, 1), (1_000, 64)):
            none, all_told = (instructions(program, folder, sets, members, events) for events in (0, EVENTS))
            costs.append((all_told - none) / EVENTS)
            print(f"{sets:,} sets of {members} members: {costs[-1]:,.0f} instructions an event", flush=True)
    print(f"ratio {costs[1] / costs[0]:.1f}")


if __name__ == "__main__":
    main()
