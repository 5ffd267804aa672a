#!/usr/bin/env python3
"""Checks reports of runs on threads, and the same with one word changed.

  check_histories.py [--program PATH] [--runs N] [--texts N] [--seed N] [FOLDER..]     examples/ and tests/, where no folder is given

The scenes without faults are run by `run`, one after another, N runs in all (300): of each `check` must say that its report is
that of a history. Then one word of such a report is changed, N times (1,000), and `check` must say how many entries are still
those of a history. How many, this script finds out by `replay` alone: it takes the turns that the changed report names, as far
as they are lawful, goes on from there with whatever turns are lawful, and compares the lines of the two reports. The last line
counts what was checked. Run by hand: which turns come by `run` is not fixed."""
import argparse
import glob
import random
import sys

from replay_runs import FOLDERS, PROGRAM, actors, printed, with_turns, without_turns


def replayed(program, scene, turns):
    """What `replay` prints of these turns, or the number of the turn that it refuses."""
    status, said = printed(program, "replay", with_turns(scene, turns))
    if status == 0:
        return said, None
    if status != 7:
        sys.exit("replay ends with status %d" % status)
    return None, int(said.split()[1])


def completed(program, scene, turns, numbers):
    """The report of a whole run that begins with these turns, of which each is lawful."""
    choices = [b"%d" % number for number in numbers.values()] + [b"D", b"I"]
    report, refused = replayed(program, scene, turns)
    while report is None:
        for choice in choices:
            report, refused = replayed(program, scene, turns + [choice])
            if report is not None or refused == len(turns) + 1:
                turns = turns + [choice]
                break
        else:
            sys.exit("no turn is lawful after %s" % b" ".join(turns))
    return report


def turns_named(report, numbers):
    """The turns that a report names, up to a line that names nobody."""
    turns = []
    for line in report.split(b"\n")[1:-1]:
        words = line.split(b" ")
        steps = {b"device": b"D", b"idle": b"I"} if words[2:3] == [b"->"] else {}
        who = words[1] if len(words) > 1 else b""
        if who not in numbers and who not in steps or words[0] == b"end":
            break
        turns.append(steps[who] if who in steps else b"%d" % numbers[who])
    return turns


def wanted(program, scene, report, changed, numbers):
    """What `check` must say of the changed report."""
    turns = turns_named(changed, numbers)
    if turns != turns_named(report, numbers)[:len(turns)]:
        report, refused = replayed(program, scene, turns)
        if report is None:
            report = completed(program, scene, turns[:refused], numbers)
    if changed == report:
        return b"yes %d\n" % (report.count(b"\n") - 2), 0
    same = 0
    for line, other in zip(report.split(b"\n")[1:-2], changed.split(b"\n")[1:-1]):
        if line != other:
            break
        same += 1
    return b"no entry %d\n" % same, 8


def another(word, words, numbers):
    """A word to stand in the place of this one."""
    choices = [random.choice(words), random.choice(list(numbers) + [b"device", b"idle"]), word + b"0", word[:-1] or b"x"]
    if word.isdigit():
        choices += [b"%d" % (int(word) + 1), b"%d" % max(int(word) - 1, 0), b"0" + word]
    return random.choice([choice for choice in choices if choice != word])


def one_word_changed(report, numbers):
    lines = [line.split(b" ") for line in report.split(b"\n")]
    at = random.randrange(len(lines) - 1)
    place = random.randrange(len(lines[at]))
    lines[at][place] = another(lines[at][place], [word for line in lines for word in line if word], numbers)
    return b"\n".join(b" ".join(line) for line in lines)


def scenes_without_faults(program, folders):
    for path in sorted(path for folder in folders for path in glob.glob(folder + "/*.scene")):
        with open(path, "rb") as file:
            scene = without_turns(file.read())
        if printed(program, "serial", scene)[0] == 0:
            yield path, scene, actors(scene)


def main():
    parser = argparse.ArgumentParser(description=__doc__, formatter_class=argparse.RawDescriptionHelpFormatter)
    parser.add_argument("--program", default=PROGRAM)
    parser.add_argument("--runs", type=int, default=300)
    parser.add_argument("--texts", type=int, default=1000)
    parser.add_argument("--seed", type=int, default=1)
    parser.add_argument("folders", nargs="*", default=FOLDERS)
    given = parser.parse_args()
    random.seed(given.seed)
    scenes = list(scenes_without_faults(given.program, given.folders))
    runs, refused, otherwise, taken = [], 0, 0, 0
    for k in range(given.runs):
        path, scene, numbers = scenes[k % len(scenes)]
        status, report = printed(given.program, "run", scene)
        yes = (0, b"yes %d\n" % (report.count(b"\n") - 2))
        if status != 0 or printed(given.program, "check", scene + b"report\n" + report) != yes:
            refused += 1
            print("%s: status %d, or the report of a run is refused" % (path, status))
        runs.append((path, scene, numbers, report))
    for k in range(given.texts):
        path, scene, numbers, report = runs[k % len(runs)]
        changed = one_word_changed(report, numbers)
        text, wanted_status = wanted(given.program, scene, report, changed, numbers)
        taken += wanted_status == 0
        status, said = printed(given.program, "check", scene + b"report\n" + changed)
        if (status, said) != (wanted_status, text):
            otherwise += 1
            print("%s: says %r, wanted %r, of\n%s" % (path, said, text, changed.decode("latin-1")))
    print("%d runs: %d refused; %d texts with one word changed: %d said otherwise, %d are the report of another history"
          % (given.runs, refused, given.texts, otherwise, taken))
    return 1 if refused or otherwise else 0


if __name__ == "__main__":
    sys.exit(main())
