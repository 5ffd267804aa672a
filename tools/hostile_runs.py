#!/usr/bin/env python3
"""Runs random scenes with hostile clients on threads, and replays what came.

  hostile_runs.py [--program PATH] [--scenes N] [--seed N] [--keep FOLDER]

Makes N scenes (3,000): a server or two for the normal world, and up to four clients whose scripts mix the driver's calls with
pokes and kicks. Most pokes are aimed: at the indexes, heads and elements of the rings, at descriptors, and at buffers, where
they write frames of every kind, whole and broken. Each scene is run by `run`, and the turns of the history that it prints are
taken by `replay`, which must print the same bytes. --keep writes scenes that were replayed otherwise, or that hang, to a folder.
The last lines count the runs and what the device did. Run by hand: which turns come is not fixed."""
import argparse
import collections
import os
import random
import re
import subprocess
import sys

from replay_runs import PROGRAM, actors, printed, turns, with_turns

DESCRIPTORS = (0x0000, 0x3000)
AVAILABLE = (0x1000, 0x4000)
USED = (0x2000, 0x5000)
BUFFERS = (0x40000, 0x80000)
MEMORY = 0x100000
PATHS = ("e", "f", "nosuch")


def little(size, value):
    return (value % 256**size).to_bytes(size, "little")


class Scenes:
    """Scenes by a random number."""

    def __init__(self, seed):
        self.random = random.Random(seed)
        self.size = 16

    def some(self, *choices):
        return self.random.choice(choices)

    def number(self, least, most):
        return self.random.randint(least, most)

    # ---------------------------------------------------------------- frames

    def frame(self):
        """A frame's bytes, or nearly."""
        dst = self.some(53, 53, 53, 1000, 1001, self.number(1024, 1027), 0)
        payload = self.control() if dst == 53 else bytes(self.number(0, 255) for _ in range(self.number(0, 24)))
        length = self.some(*[len(payload)] * 8, len(payload) + 1, self.number(0, 65535))
        src = self.some(53, 1000, 1001, *range(1024, 1028), 7, self.number(0, 2**32 - 1))
        return little(4, src) + little(4, dst) + little(4, 0) + little(2, length) + little(2, 0) + payload

    def control(self):
        kind = self.some(1, 2, 3, 3, 3, 4, 4, 5, 5, 6)
        body = {3: self.name(), 4: self.answer(), 5: little(4, self.some(1000, 1001, 1024, 1025))}.get(kind, b"")
        told = self.some(*[len(body)] * 8, len(body) + 1)
        return little(4, kind) + little(4, told) + body

    def name(self):
        name = self.some(*PATHS, *PATHS, "", "a b").encode()
        return name + bytes(256 - len(name) - 1) + self.some(b"\0", b"\0", b"\0", b"x")

    def answer(self):
        status = self.some(0, 0, 0, self.number(1, 17), 2**32 - 1)
        return b"".join(little(4, n) for n in (self.number(1024, 1027), status, self.some(1000, 1001, 77), self.some(0, 4, 4096, 2**32 - 1), 1))

    # ---------------------------------------------------------------- pokes

    def index(self):
        return self.some(0, 1, 2, self.size, self.size + 1, 65535, self.number(0, 2 * self.size), self.number(0, 65535))

    def place(self):
        return self.number(0, min(self.size, 8))

    def address(self):
        queue = self.number(0, 1)
        return self.some(
            BUFFERS[queue] + 0x2000 * self.place(), 0xC0000 + 0x200 * self.number(0, 7), AVAILABLE[queue], USED[queue],
            DESCRIPTORS[queue] + 16 * self.place(), MEMORY - self.number(0, 32), self.number(0, MEMORY))

    def descriptor(self):
        length = self.some(0, 1, 16, 24, 28, 44, 280, 0x2000, self.number(0, 0x2010), 2**32 - 1)
        return little(8, self.address()) + little(4, length) + little(2, self.number(0, 3)) + little(2, self.place())

    def poke(self):
        """An aimed poke: its address and its bytes."""
        queue, kind = self.number(0, 1), self.number(0, 9)
        if kind == 0:
            return AVAILABLE[queue] + 2, little(2, self.index())
        if kind == 1:
            return USED[queue] + 2, little(2, self.index())
        if kind == 2:
            return AVAILABLE[queue] + 4 + 2 * self.place(), little(2, self.place())
        if kind == 3:
            return USED[queue] + 4 + 8 * self.place(), little(4, self.number(0, 33)) + little(4, self.some(0, 24, 44, 0x2000, 0x2001))
        if kind in (4, 5):
            return DESCRIPTORS[queue] + 16 * self.place(), self.descriptor()
        if kind in (6, 7):
            return BUFFERS[queue] + 0x2000 * self.place(), self.frame()
        if kind == 8:
            return 0xC0000 + 0x200 * self.number(0, 7), self.frame()
        return self.address(), bytes(self.number(0, 255) for _ in range(self.number(0, 40)))

    def poke_line(self):
        address, data = self.poke()
        return "npoke %d hex:%s" % (address, data.hex())

    def kick_line(self):
        return "nkick %d %d" % (self.some(1, 1, 1, 1, 0, 2), self.some(self.place(), self.place(), self.place(), self.size, 65535, 65536))

    def chain_lines(self):
        """A frame at an address of nobody's, published by its own descriptor."""
        at, place, frame = 0xC0000 + 0x200 * self.number(0, 7), self.place(), self.frame()
        descriptor = little(8, at) + little(4, len(frame)) + little(2, 0) + little(2, 0)
        return ["npoke %d hex:%s" % (at, frame.hex()), "npoke %d hex:%s" % (DESCRIPTORS[1] + 16 * place, descriptor.hex()), "nkick 1 %d" % place]

    # ---------------------------------------------------------------- scripts

    def client_lines(self):
        lines = ["nconnect %s as k" % self.some(*PATHS)] if self.number(0, 3) else []
        for _ in range(self.number(1, 9)):
            kind = self.number(0, 9)
            if kind < 3:
                lines.append(self.poke_line())
            elif kind < 5:
                lines.append(self.kick_line())
            elif kind < 7:
                lines += self.chain_lines()
            else:
                lines.append(self.some(
                    "nconnect %s as k" % self.some(*PATHS), "nsend $k fill:%d:65" % self.number(0, 20), "nrecv $k %d" % self.some(0, 5), "nclose $k"))
        return lines

    def server_lines(self, path):
        lines = ["port %s %d %d ns as p" % (path, self.number(1, 3), self.some(4, 16, 4096))]
        lines += ["wait $p %d" % self.some(5, 50), "accept $p as c"] if self.number(0, 4) else []
        for _ in range(self.number(0, 3)):
            lines += ["wait $c %d" % self.some(5, 50), "get $c as m", "read $c $m 0 64 0", "put $c $m"]
            lines += ["send $c text:reply"] if self.number(0, 1) else []
        return lines + self.some([], ["close $c"], ["close $p"], ["wait $c 20"])

    def scene(self):
        self.size = self.some(1, 2, 4, 16, 16, 64, 256)
        lines = ["scene 1", "queues %d" % self.size]
        for path in PATHS[:self.number(0, 2)]:
            lines += ["app server_%s" % path, "thread"] + self.server_lines(path)
        for number in range(self.number(1, 4)):
            lines += ["client c%d" % number] + self.client_lines()
        return ("\n".join(lines) + "\n").encode()


def verdict(program, scene, seen):
    """Whether `replay` prints what `run` printed; counts what the device did."""
    try:
        status, history = printed(program, "run", scene)
    except subprocess.TimeoutExpired:
        return "hangs"
    if status != 0:
        return "status %d" % status
    for words in re.findall(r"device -> (broke \d \w+|\w+ \w+)", history.decode()):
        seen[words] += 1
    replayed = printed(program, "replay", with_turns(scene, turns(history, actors(scene))))
    return "same" if replayed == (0, history) else "replayed otherwise"


def main():
    parser = argparse.ArgumentParser(description=__doc__, formatter_class=argparse.RawDescriptionHelpFormatter)
    parser.add_argument("--program", default=PROGRAM)
    parser.add_argument("--scenes", type=int, default=3000)
    parser.add_argument("--seed", type=int, default=1)
    parser.add_argument("--keep", metavar="FOLDER")
    given = parser.parse_args()
    scenes, seen, verdicts = Scenes(given.seed), collections.Counter(), collections.Counter()
    for number in range(given.scenes):
        scene = scenes.scene()
        told = verdict(given.program, scene, seen)
        verdicts[told] += 1
        if told != "same":
            print("scene %d: %s" % (number, told))
            if given.keep:
                with open(os.path.join(given.keep, "hostile_%d.scene" % number), "wb") as file:
                    file.write(scene)
    for words, count in sorted(seen.items()):
        print("%-28s %d" % (words, count))
    print("%d runs: %s" % (given.scenes, ", ".join("%d %s" % (count, told) for told, count in sorted(verdicts.items()))))
    return 0 if set(verdicts) <= {"same"} else 1


if __name__ == "__main__":
    sys.exit(main())
