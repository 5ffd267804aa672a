#!/usr/bin/env python3
"""Runs scenes on threads and replays what came.

  replay_runs.py [--program PATH] [--times N] [--room MIB] [FOLDER..]        examples/ and tests/, where no folder is given

Each scene without faults is run N times (4) by `run`. The turns of the history that it prints are then listed under the same
scene and taken by `replay`, which must print the same bytes. A run that does not end within 20 seconds is told as one that
hangs. The last line counts the runs, those that were replayed otherwise, those that hang, and those whose history is not that
of the serial order. Run by hand: which turns come is not fixed."""
import argparse
import glob
import os
import subprocess

HERE = os.path.dirname(os.path.abspath(__file__))
PROGRAM = os.path.join(HERE, "..", "crates", "trusty_main", "out", "trusty_main")
FOLDERS = [os.path.join(HERE, "..", name) for name in ("examples", "tests")]


def printed(program, command, scene, room=None):
    words = [program, command]
    if room is not None:
        words = ["sh", "-c", 'ulimit -v "$0" && exec "$@"', str(room * 1024)] + words
    said = subprocess.run(words, input=scene, stdout=subprocess.PIPE, timeout=20)
    return said.returncode, said.stdout


def without_turns(scene):
    lines = scene.split(b"\n")
    for at, line in enumerate(lines):
        if line.split() == [b"turns"]:
            lines = lines[:at] + [b""]
            break
    return b"\n".join(lines) if lines[-1] == b"" else b"\n".join(lines) + b"\n"


def actors(scene):
    """The numbers of the actors by their names in reports: the threads, application by application, then the clients."""
    threads, clients, app, count = [], [], None, 0
    for line in scene.split(b"\n"):
        words = line.split()
        if words[:1] == [b"app"]:
            app, count = words[1], 0
            threads.append(app + b".0")
        elif words[:1] == [b"thread"]:
            if count > 0:
                threads.append(app + b".%d" % count)
            count += 1
        elif words[:1] == [b"client"]:
            clients.append(words[1])
    return {name: number for number, name in enumerate(threads + clients)}


def turns(history, numbers):
    """The turns of a printed history. A client may be named as the device or idle is: their steps have no call."""
    listed = []
    for line in history.split(b"\n")[1:]:
        words = line.split(b" ")
        if words[0] == b"end":
            return listed
        if words[2] == b"->":
            listed.append({b"idle": b"I", b"device": b"D"}[words[1]])
        else:
            listed.append(b"%d" % numbers[words[1]])
    return listed


def with_turns(scene, listed):
    """The scene with these turns behind it, a hundred a line."""
    return scene + b"turns\n" + b"".join(b" ".join(listed[at:at + 100]) + b"\n" for at in range(0, len(listed), 100))


def main():
    parser = argparse.ArgumentParser(description=__doc__, formatter_class=argparse.RawDescriptionHelpFormatter)
    parser.add_argument("--program", default=PROGRAM)
    parser.add_argument("--times", type=int, default=4)
    parser.add_argument("--room", type=int, metavar="MIB")
    parser.add_argument("folders", nargs="*", default=FOLDERS)
    words = parser.parse_args()
    runs = otherwise = hang = unlike = 0
    for path in sorted(path for folder in words.folders for path in glob.glob(os.path.join(folder, "*.scene"))):
        with open(path, "rb") as file:
            scene = without_turns(file.read())
        status, serial = printed(words.program, "serial", scene)
        if status != 0:
            continue
        numbers = actors(scene)
        for _ in range(words.times):
            runs += 1
            try:
                status, history = printed(words.program, "run", scene, words.room)
            except subprocess.TimeoutExpired:
                hang += 1
                print(f"{path}: hangs")
                continue
            unlike += history != serial
            replayed = with_turns(scene, turns(history, numbers))
            if status != 0 or printed(words.program, "replay", replayed) != (0, history):
                otherwise += 1
                print(f"{path}: status {status}, or replayed otherwise")
    print(f"{runs} runs: {otherwise} replayed otherwise, {hang} hang, {unlike} unlike the serial order")


if __name__ == "__main__":
    main()
