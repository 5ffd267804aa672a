#!/usr/bin/env python3
"""Tries the kernel's definitions on worked scenes, before or beside its code.

  try_cases.py CASES.json.. --out FOLDER [--count N] [--from K] [--only TEXT] [--largest BYTES]
               [--world CRATE] [--run]

A file of cases is a list of objects with the keys name, words, scene, status and output. FOLDER is
a crate of a scratch clone that crates.txt lists over the crates of the definitions, as
`tried: kernel_values kernel_types`. The script writes that crate anew: for each case a file
proofs/CaseN.antt with one lemma by computation. For the command `serial` with status 0 it says
that the serial history of the scene is the printed one with its end line, for `replay` with
status 0 the same of the history of the scene's turns, and for `replay` with status 7 that the
printed turn is refused; where the case prints the form counts or summary, the lemma is of that.
With --run it checks the crate, and prints for each case: agrees, differs
(with the first difference), or limit (the checker stopped before it had an answer). Tried are scenes
without clients, not in the form actors, smaller ones first; --largest leaves out cases that print
more bytes. With --world CRATE those with clients are tried instead, over the definitions in a crate
that paged_world.py wrote; crates.txt then lists it behind the others, as `tried: kernel_values
kernel_types paged_world`. Every name of the
definitions stands in the table below."""
import argparse, json, os, re, subprocess, sys, uuid

# ---------------------------------------------------------------- names of the definitions

DECLARED = "Rattle.kernel_values.specs.declared"

# Types and functions that a case's file imports.
IMPORTS = [
    "Rattle.std.specs.Prelude.{◌≡◌, ℕ, List, [], ◌∷◌, Option, Some, None, Bool, true, false, refl, codes, replicate}",
    "Rattle.kernel_values.specs.SceneLaw.{SceneValue}",
    DECLARED + ".call.Timeout.TheVariants as timeout",
    DECLARED + ".call.Call.TheVariants as call",
    DECLARED + ".reply.Reply.TheVariants as reply",
    DECLARED + ".reply.Answer.TheVariants as answer",
    DECLARED + ".errno.Errno.TheVariants as errno",
    DECLARED + ".scene.Turn.TheVariants as turn",
    DECLARED + ".reply.DeviceReply.TheVariants as device",
    DECLARED + ".reply.IgnoreCause.TheVariants as ignored",
    DECLARED + ".reply.BreakCause.TheVariants as broken",
]
# What the shown entries stand on.
SHOWN_IMPORTS = [
    "Rattle.std.specs.Prelude.{ℕ, List, [], ◌∷◌, ◌+◌, None, Some}",
    DECLARED + ".call.Call.{Call}",
    DECLARED + ".reply.Answer.TheVariants as answer",
    DECLARED + ".state.State.{State}",
    "Rattle.kernel_values.specs.SceneLaw.{SceneValue}",
    "Rattle.kernel_types.specs.Opening.{opening}",
    "Rattle.kernel_types.specs.Step.{step}",
    DECLARED + ".reply.Answer.{Answer}",
    DECLARED + ".entry.Entry.{Entry}",
    DECLARED + ".entry.Event.{Event}",
    DECLARED + ".entry.Event.TheVariants as event",
    DECLARED + ".entry.EndFacts.{EndFacts}",
    "Rattle.kernel_types.specs.Turns.{Run, Outturn, ran, refused}",
    "Rattle.kernel_types.specs.Facts.{end_facts}",
]
SCENE = "SceneValue"                    # what contracts see of a scene
SERIAL = "serial_run"                   # SCENE → Run
REPLAY = "replay_of"                    # SCENE → Outturn
TURNS = {"D": "turn.Device", "I": "turn.Idle"}
DEFINITIONS = ["Rattle.kernel_types.specs.Serial.{serial_run}", "Rattle.kernel_types.specs.Turns.{ran, refused, opening_run, replay_of}"]
UNFOLDING = ["kernel_on_literals"]      # opens every definition that a history needs
UNFOLDING_IMPORTS = ["Rattle.kernel_types.specs.OnLiterals.{kernel_on_literals}"]
FLAGS = "record {{ 0 = {} }}"           # a flag type, from its bits
ACTOR = "actor.0"                       # the number of an event's actor, of which ActorId is a tuple struct

# Calls by their word: the constructor, and the kinds of its words.
CALLS = {
    "port": ("PortCreate", ["path", "number", "number", "port_flags"]),
    "connect": ("Connect", ["path", "connect_flags"]),
    "accept": ("Accept", ["handle"]),
    "send": ("Send", ["handle", "bytes", "parts"]),
    "get": ("Get", ["handle"]),
    "read": ("Read", ["handle", "handle", "number", "number", "number"]),
    "put": ("Put", ["handle", "handle"]),
    "cookie": ("SetCookie", ["handle", "number"]),
    "close": ("Close", ["handle"]),
    "dup": ("Dup", ["handle"]),
    "set": ("SetCreate", []),
    "add": ("SetAdd", ["handle", "handle", "mask", "number"]),
    "del": ("SetDel", ["handle", "handle"]),
    "mod": ("SetMod", ["handle", "handle", "mask", "number"]),
    "memref": ("MemCreate", ["number", "mem_flags"]),
    "mread": ("MemRead", ["handle", "number", "number"]),
    "mwrite": ("MemWrite", ["handle", "number", "bytes"]),
    "wait": ("Wait", ["handle", "timeout"]),
    "waitany": ("WaitAny", ["timeout"]),
    "exit": ("Exit", ["number"]),
    "finish": ("Finish", []),
    "nconnect": ("NsConnect", ["path"]),
    "nsend": ("NsSend", ["handle", "bytes"]),
    "nrecv": ("NsRecv", ["handle", "timeout"]),
    "nclose": ("NsClose", ["handle"]),
    "npoke": ("NsPoke", ["number", "bytes"]),
    "nkick": ("NsKick", ["number", "number"]),
}
FLAG_BITS = {
    "port_flags": {"none": 0, "ta": 1, "ns": 2, "ta+ns": 3},
    "connect_flags": {"sync+wait": 1, "sync": 0, "async": 2, "async+wait": 3},
    "mem_flags": {"r": 0, "rw": 1},
}
INVALID_HANDLE = 4_294_967_295
# What the device says, by the words in front: the constructor; the numbers that follow are its arguments.
DEVICE = {
    "sent go_online": "SentOnline",
    "sent conn_rsp": "SentRsp",
    "sent disc_req": "SentDisc",
    "sent data": "SentMessage",
    "took disc_req": "TookDisc",
    "took data": "TookMessage",
}

# ---------------------------------------------------------------- terms of antt


def listed(terms):
    return "".join("%s ∷ " % term for term in terms).replace("∷ \n", "∷\n") + "[]"


def bracketed(terms):
    return "(%s)" % listed(terms) if terms else "[]"


def bytes_term(value):
    """A list of bytes: as a text, as copies of one byte, or byte by byte."""
    if not value:
        return "[]"
    if all(33 <= b <= 126 and b not in b'"\\' for b in value):
        return '(codes "%s")' % value.decode("ascii")
    if len(value) > 4 and len(set(value)) == 1:
        return "(replicate %d %d)" % (len(value), value[0])
    return bracketed([str(b) for b in value])


def flags_term(bits):
    return "(%s)" % FLAGS.format(bits)


def option_term(value):
    return "None" if value is None else "(Some %s)" % value


def bool_term(value):
    return "true" if value else "false"


def record_term(fields):
    return "record { %s }" % "; ".join("%s = %s" % pair for pair in fields)


# ---------------------------------------------------------------- words of a call


def bytes_of(word):
    """The bytes of `hex:`, `text:` and `fill:`, and of a report's plain hexadecimal."""
    if word.startswith("hex:"):
        return bytes.fromhex(word[4:])
    if word.startswith("text:"):
        return word[5:].encode("latin-1")
    if word.startswith("fill:"):
        count, byte = word[5:].split(":")
        return bytes([int(byte)]) * int(count)
    return b"" if word == "-" else bytes.fromhex(word)


class Registers:
    """The registers of one script, numbered in the order of first naming."""

    def __init__(self):
        self.numbers = {}

    def number(self, name):
        return self.numbers.setdefault(name, len(self.numbers))


class Command:
    """One line of a script: the call's term, the registers that it reads and sets."""

    def __init__(self, words, registers=None):
        self.registers, self.reads, self.places = registers, [], 0
        fixed = 1 + sum(kind != "parts" for kind in CALLS[words[0]][1])
        cut = words.index("as", fixed) if "as" in words[fixed:] else len(words)
        self.call = self.call_term(words[:cut])
        targets = words[cut + 1:]
        self.sets = [registers.number(name) for name in targets]

    def handle(self, word):
        place, self.places = self.places, self.places + 1
        if not word.startswith("$"):
            return int(word)
        self.reads.append((place, self.registers.number(word[1:])))
        return INVALID_HANDLE

    def argument(self, kind, words):
        """The term of one argument; takes its words from the front."""
        if kind == "parts":
            parts = [w for w in words if w != "with"]
            words.clear()
            return bracketed([str(self.handle(w)) for w in parts])
        word = words.pop(0)
        if kind == "path":
            return bytes_term(word.encode("latin-1"))
        if kind == "bytes":
            return bytes_term(bytes_of(word))
        if kind == "handle":
            return str(self.handle(word))
        if kind == "timeout":
            return "timeout.Forever" if word == "-1" else "(timeout.Millis %d)" % int(word)
        if kind == "mask":
            return flags_term(int(word))
        if kind in FLAG_BITS:
            return flags_term(FLAG_BITS[kind][word])
        return str(int(word))

    def call_term(self, words):
        constructor, kinds = CALLS[words[0]]
        rest = words[1:]
        arguments = [self.argument(kind, rest) for kind in kinds]
        if rest:
            raise ValueError("words left over: %s" % rest)
        return " ".join(["call." + constructor] + arguments)

    def term(self):
        return record_term([
            ("call", self.call),
            ("reads", listed(record_term([("place", p), ("reg", r)]) for p, r in self.reads)),
            ("sets", listed(map(str, self.sets))),
        ])


# ---------------------------------------------------------------- the scene


class App:
    def __init__(self, name, number, manifest):
        self.name, self.threads = name, []
        self.uuid, self.restart, self.deferred, self.ports = number + 1, False, False, []
        if manifest:
            self.read_manifest(json.loads(manifest))

    def read_manifest(self, value):
        flags = value.get("mgmt_flags", {})
        self.uuid = uuid.UUID(value["uuid"]).int
        self.restart = flags.get("restart_on_exit", False)
        self.deferred = flags.get("deferred_start", False)
        for port in value.get("start_ports", []):
            allowed = port.get("flags", {})
            bits = allowed.get("allow_ta_connect", False) + 2 * allowed.get("allow_ns_connect", False)
            self.ports.append((port["name"].encode("utf-8"), bits))

    def term(self):
        ports = [record_term([("path", bytes_term(path)), ("flags", flags_term(bits))]) for path, bits in self.ports]
        manifest = record_term([
            ("uuid", self.uuid), ("restart", bool_term(self.restart)),
            ("deferred", bool_term(self.deferred)), ("ports", listed(ports)),
        ])
        threads = [bracketed(["\n        " + c.term() for c in script]) for script in self.threads]
        return record_term([
            ("name", bytes_term(self.name.encode())), ("manifest", manifest),
            ("threads", listed("\n      " + t for t in threads)),
        ])


class Client:
    def __init__(self, name, script):
        self.name, self.script = name, script

    def term(self):
        return record_term([("name", bytes_term(self.name.encode())), ("script", bracketed(["\n        " + c.term() for c in self.script]))])


class Scene:
    """A lawful scene."""

    def __init__(self, text):
        self.apps, self.clients, self.queue, self.script, self.registers = [], [], 16, None, None
        self.turns, self.has_turns = [], False
        lines = text.split("\n")
        k = 0
        while k < len(lines):
            k = self.take_line(lines, k)
        for app in self.apps:
            app.threads = app.threads or [[]]

    def take_line(self, lines, k):
        """Takes the line k, or the whole repeat that begins there; the next line's number."""
        line = lines[k].rstrip("\r")
        words = line.split()
        if not words or words[0].startswith("#") or words[0] == "scene":
            return k + 1
        if self.has_turns:
            self.turns += [TURNS.get(w) or "turn.Actor %d" % int(w) for w in words]
        elif words[0] == "turns":
            self.has_turns = True
        elif words[0] == "queues":
            self.queue = int(words[1])
        elif words[0] == "app":
            rest = line.split(None, 2)[2:]
            self.apps.append(App(words[1], len(self.apps), rest[0].strip() if rest else ""))
        elif words[0] == "thread":
            self.script, self.registers = [], Registers()
            self.apps[-1].threads.append(self.script)
        elif words[0] == "client":
            self.script, self.registers = [], Registers()
            self.clients.append(Client(words[1], self.script))
        elif words[0] == "repeat":
            end = next(j for j in range(k + 1, len(lines)) if lines[j].split() == ["end"])
            body = [self.command(l) for l in lines[k + 1:end]]
            self.script += [c for c in body if c] * int(words[1])
            return end + 1
        else:
            self.script.append(self.command(line))
        return k + 1

    def command(self, line):
        words = line.split()
        if not words or words[0].startswith("#"):
            return None
        return Command(words, self.registers)

    def actors(self):
        """The names of the actors as reports print them, in order."""
        threads = ["%s.%d" % (app.name, t) for app in self.apps for t in range(len(app.threads))]
        return threads + [client.name for client in self.clients]

    def term(self):
        apps = ["\n    " + app.term() for app in self.apps]
        clients = ["\n    " + client.term() for client in self.clients]
        return record_term([("apps", listed(apps)), ("clients", listed(clients)), ("queue", self.queue), ("turns", listed(self.turns))])


# ---------------------------------------------------------------- the report


def reply_term(words):
    """The term of a reply from its words, or None where they are no reply."""
    first, rest = words[0], words[1:]
    if first == "done":
        return "reply.Done"
    if first == "handle" and "uuid" in rest:
        return "(reply.Accepted %d %d)" % (int(rest[0]), uuid.UUID(rest[2]).int)
    if first == "handle":
        return "(reply.Handle %d)" % int(rest[0])
    if first == "count":
        return "(reply.Count %d)" % int(rest[0])
    if first == "message":
        return "(reply.Message %s)" % " ".join(rest)
    if first == "bytes":
        return "(reply.Bytes %s %s)" % (bytes_term(bytes_of(rest[0])), bracketed(rest[2:]))
    if first == "event":
        return "(reply.Event %s %s %s)" % (rest[0], flags_term(int(rest[1])), rest[2])
    if first == "conn":
        return "(reply.Conn %d)" % int(rest[0])
    return None


def device_term(words):
    """The term of what the device says."""
    if words[0] == "ignored":
        return "(device.Ignored ignored.%s)" % camel(words[1])
    if words[0] == "broke":
        return "(device.Broke %s broken.%s %s)" % (words[1], camel(words[2]), words[3])
    if words[:2] == ["took", "conn_req"]:
        return "(device.TookReq %s %s)" % (words[2], bytes_term(words[3].encode("latin-1")))
    return "(%s)" % " ".join(["device." + DEVICE[" ".join(words[:2])]] + words[2:])


def camel(printed):
    """A printed word as a constructor's name."""
    return "".join(part.capitalize() for part in printed.split("_"))


def answer_term(text):
    words = text.split()
    if words[0] == "waits":
        return "answer.Waits"
    if words[0] == "refused":
        return "(answer.Refuses errno.%s)" % camel(words[1])
    if words[0] == "clock":
        return "(answer.Clock %d)" % int(words[1])
    if words[0] == "cancel":
        return "answer.CancelAll"
    if words[0] in ("sent", "took", "ignored", "broke"):
        return "(answer.Device %s)" % device_term(words)
    reply = reply_term(words)
    if reply is None:
        raise ValueError("no answer: %s" % text)
    return "(answer.Gives %s)" % reply


def entry_term(actors, line):
    """One printed entry as a shown entry."""
    _, who, rest = line.split(" ", 2)
    if rest.startswith("-> "):
        return "%s %s" % ("Idled" if who == "idle" else "Moved", answer_term(rest[3:]))
    call, answer = rest.rsplit(" -> ", 1)
    actor = actors.index(who)
    if call == "resume":
        return "Resumed %d %s" % (actor, answer_term(answer))
    return "Called %d (%s) %s" % (actor, Command(call.split()).call, answer_term(answer))


class Report:
    def __init__(self, actors, text):
        lines = text.rstrip("\n").split("\n")
        self.lines = lines[1:-1]
        self.entries = [entry_term(actors, line) for line in self.lines]
        words = lines[-1].split()
        self.end = record_term([("clock", words[2]), ("objects", words[4]), ("names", words[6])])


# ---------------------------------------------------------------- the crate


LIBRARY = """//! Worked scenes as lemmas over the definitions.
#![tactic(auto)]

/// The lemmas are checked with the crate.
pub fn tried() {}
"""

SHOWN = """-- An entry as a history prints it, without the start number and the sequence numbers.
pub data Shown : Type 0 where
  Called : (actor : ℕ) (call : Call) (answer : Answer) → Shown
  Resumed : (actor : ℕ) (answer : Answer) → Shown
  Moved : (answer : Answer) → Shown
  Idled : (answer : Answer) → Shown

abbrev pub shown_as : Event → Answer → Shown
shown_as (event.Begin actor start call) answer = Called ACTOR call answer
shown_as (event.Resume actor start) answer = Resumed ACTOR answer
shown_as event.Device answer = Moved answer
shown_as event.Idle answer = Idled answer

abbrev pub shown : List Entry → List Shown
shown [] = []
shown (entry ∷ entries) = shown_as entry.event entry.answer ∷ shown entries

-- What a run prints: its entries, and the facts at its end.
pub record Told : Type 0 where
  pub entries : List Shown
  pub facts : EndFacts

abbrev pub told : Run → Told
told run = record { entries = shown run.entries; facts = end_facts run.state }

-- What a replay prints: a run, or the turn that is refused.
pub data Replayed : Type 0 where
  Whole : Told → Replayed
  Stopped : ℕ → Replayed

abbrev pub replayed : Outturn → Replayed
replayed (ran run) = Whole (told run)
replayed (refused k) = Stopped k

-- What the other forms print: the objects and names after each entry, and the entries by their kinds.
abbrev pub counts_from : State → List Entry → List (ℕ × ℕ)
counts_from s [] = []
counts_from s (entry ∷ entries) = elim (step s entry.event) as (λ _. List (ℕ × ℕ)) [
      | None ↦ []
      | Some stepped ↦ ((end_facts stepped.state).objects, (end_facts stepped.state).names) ∷ counts_from stepped.state entries ]

abbrev pub kind_of : Event → Answer → ℕ × ℕ × ℕ × ℕ × ℕ × ℕ
kind_of (event.Begin actor start call) (answer.Gives reply) = (1, 0, 0, 0, 1, 0)
kind_of (event.Begin actor start call) (answer.Refuses errno) = (1, 0, 0, 0, 0, 1)
kind_of (event.Begin actor start call) other = (1, 0, 0, 0, 0, 0)
kind_of (event.Resume actor start) (answer.Gives reply) = (0, 1, 0, 0, 1, 0)
kind_of (event.Resume actor start) (answer.Refuses errno) = (0, 1, 0, 0, 0, 1)
kind_of (event.Resume actor start) other = (0, 1, 0, 0, 0, 0)
kind_of event.Device other = (0, 0, 1, 0, 0, 0)
kind_of event.Idle other = (0, 0, 0, 1, 0, 0)

abbrev pub kinds_in : List Entry → ℕ × ℕ × ℕ × ℕ × ℕ × ℕ
kinds_in [] = (0, 0, 0, 0, 0, 0)
kinds_in (entry ∷ entries) =
    let one : ℕ × ℕ × ℕ × ℕ × ℕ × ℕ = kind_of entry.event entry.answer in
    let more : ℕ × ℕ × ℕ × ℕ × ℕ × ℕ = kinds_in entries in
    (one.0 + more.0, one.1 + more.1, one.2 + more.2, one.3 + more.3, one.4 + more.4, one.5 + more.5)

pub record Counted : Type 0 where
  pub counts : List (ℕ × ℕ)
  pub facts : EndFacts

pub record Summed : Type 0 where
  pub kinds : ℕ × ℕ × ℕ × ℕ × ℕ × ℕ
  pub facts : EndFacts

abbrev pub counted : SceneValue → Run → Counted
counted scene run = record { counts = counts_from (opening scene) run.entries; facts = end_facts run.state }

abbrev pub summed : SceneValue → Run → Summed
summed scene run = record { kinds = kinds_in run.entries; facts = end_facts run.state }

-- the run of a replay that is whole
abbrev pub run_in : Run → Outturn → Run
run_in other (ran run) = run
run_in other (refused k) = other
"""

LEMMAS = """
abbrev scene : {type}
scene = {scene}

row : {found} ≡ {wanted}
{unfolding}row = refl
"""


def uses(lines):
    return "".join("use %s\n" % line for line in lines)


def told_term(report):
    entries = listed("\n    " + e for e in report.entries)
    return "record { entries = (%s); facts = %s }" % (entries, report.end)


def end_of(output):
    words = output.rstrip("\n").split("\n")[-1].split()
    return record_term([("clock", words[2]), ("objects", words[4]), ("names", words[6])])


def counted_term(output):
    lines = [line.split() for line in output.split("\n")[1:-2]]
    pairs = listed("(%s, %s)" % (words[2], words[4]) for words in lines)
    return "record { counts = %s; facts = %s }" % (pairs, end_of(output))


def summed_term(output):
    lines = [line.split() for line in output.split("\n")]
    kinds = lines[0][4::2] + lines[1][2::2]
    return "record { kinds = (%s); facts = %s }" % (", ".join(kinds), end_of(output))


def form_of(words):
    """The form that these words ask for."""
    for place, word in enumerate(words):
        if word.startswith("--form="):
            return word[7:]
        if word == "--form":
            return words[place + 1]
    return "history"


def command_of(words):
    rest = [w for w in words if w != "--" and not w.startswith("--form=")]
    if "--form" in rest:
        del rest[rest.index("--form"):rest.index("--form") + 2]
    return rest


def wanted_terms(case, scene):
    """What is computed of a case's scene, and what it is to be."""
    is_replay = "replay" in case["words"]
    if case["status"] == 7:
        return "replayed (%s scene)" % REPLAY, "Stopped %d" % int(case["output"].split()[1])
    run = "(run_in (opening_run scene) (%s scene))" % REPLAY if is_replay else "(%s scene)" % SERIAL
    if form_of(case["words"]) == "counts":
        return "counted scene %s" % run, counted_term(case["output"])
    if form_of(case["words"]) == "summary":
        return "summed scene %s" % run, summed_term(case["output"])
    told = told_term(Report(scene.actors(), case["output"]))
    if is_replay:
        return "replayed (%s scene)" % REPLAY, "Whole (%s)" % told
    return "told %s" % run, told


def case_file(crate, case):
    scene = Scene(case["scene"])
    head = "-- %s\n" % case["name"].replace("\n", " ") + uses(IMPORTS + DEFINITIONS + UNFOLDING_IMPORTS)
    head += "use Rattle.%s.specs.Shown.{Shown, Told, told, Replayed, replayed, counted, summed, run_in}\n" % crate
    head += "use Rattle.%s.specs.Shown.Shown.{Called, Resumed, Moved, Idled}\n" % crate
    head += "use Rattle.%s.specs.Shown.Replayed.{Whole, Stopped}\n" % crate
    found, wanted = wanted_terms(case, scene)
    return head + LEMMAS.format(
        type=SCENE, scene=scene.term(), found=found, wanted=wanted,
        unfolding="unfolding %s\n" % " ".join(UNFOLDING) if UNFOLDING else "")


def is_wanted(case, clients):
    """Whether the case prints a run in one of three forms, or refuses a turn, of a scene with clients or without."""
    if ("client" in {line.split()[0] for line in case["scene"].split("\n") if line.split()}) != clients:
        return False
    command = command_of(case["words"])
    if (command, case["status"]) == (["replay"], 7):
        return True
    return command in (["serial"], ["replay"]) and case["status"] == 0 and form_of(case["words"]) != "actors"


def wanted_cases(arguments):
    cases = [c for path in arguments.cases for c in json.load(open(path)) if is_wanted(c, arguments.world is not None)]
    seen, distinct = set(), []
    for case in sorted(cases, key=lambda c: (len(c["output"]), len(c["scene"]))):
        key = (case["scene"], "replay" in case["words"], case["status"] or form_of(case["words"]))
        if key not in seen:
            seen.add(key)
            distinct.append(case)
    named = [c for c in distinct if arguments.only in c["name"] and len(c["output"]) <= arguments.largest]
    return named[arguments.start:][:arguments.count]


def over_world(crate):
    """Leads what stands on the memory to the crate's definitions."""
    def led(line):
        return re.sub(r"Rattle\.kernel_types\.specs\.(Opening|Turns|Serial|Facts|Step)\.", r"Rattle.%s.specs.\1." % crate, line)

    SHOWN_IMPORTS[:], DEFINITIONS[:] = map(led, SHOWN_IMPORTS), map(led, DEFINITIONS)
    UNFOLDING[:] = ["pages_on_literals"]
    UNFOLDING_IMPORTS[:] = ["Rattle.%s.specs.OnLiterals.{pages_on_literals}" % crate]


def write(path, text):
    os.makedirs(os.path.dirname(path), exist_ok=True)
    with open(path, "w", encoding="utf-8") as out:
        out.write(text)


def write_crate(folder, cases):
    """Writes the whole crate anew; the names of the cases' files, in order."""
    crate = os.path.basename(os.path.abspath(folder))
    for part in ("src", "specs", "proofs"):
        for root, _, files in os.walk(os.path.join(folder, part)):
            for name in files:
                os.remove(os.path.join(root, name))
    write(os.path.join(folder, "src/lib.rt"), LIBRARY)
    write(os.path.join(folder, "specs/Lib.antt"), "pub mod Shown\n")
    write(os.path.join(folder, "specs/Shown.antt"), uses(SHOWN_IMPORTS) + "\n" + SHOWN.replace("ACTOR", ACTOR))
    names = ["Case%d" % k for k in range(len(cases))]
    for name, case in zip(names, cases):
        write(os.path.join(folder, "proofs/%s.antt" % name), case_file(crate, case))
    write(os.path.join(folder, "proofs/Lib.antt"), "".join("mod %s\n" % name for name in names))
    return names


# ---------------------------------------------------------------- the answers


ERROR = re.compile(r"^\./(\S+\.antt):(\d+):\d+: error: (.*)")


def errors_of(log):
    """The errors as (file, line, text)."""
    errors = []
    for line in log.split("\n"):
        start = ERROR.match(line)
        if start:
            errors.append((start.group(1), int(start.group(2)), [start.group(3)]))
        elif errors and line.startswith("  "):
            errors[-1][2].append(line.strip())
    return [(name, line, " ".join(text)) for name, line, text in errors]


def verdict(folder, name, case, errors):
    """The line that is printed for a case."""
    mine = [(line, text) for file, line, text in errors if file == "proofs/%s.antt" % name]
    if not mine:
        return "agrees"
    line, text = mine[0]
    if re.search(r"\blimit|memory|steps\b", text):
        return "limit: " + text[:400]
    return "differs\n    " + text[:1200]


def run(folder, names, cases):
    """Checks the crate and prints what holds; whether all did."""
    checked = subprocess.run(["rt", "check"], cwd=folder, stdout=subprocess.PIPE, stderr=subprocess.STDOUT)
    log = checked.stdout.decode("utf-8", "replace")
    write(os.path.join(folder, "try_cases.log"), log)
    errors = errors_of(log)
    others = [e for e in errors if not e[0].startswith("proofs/Case")]
    if not any(e[0].startswith("proofs/Case") for e in errors) and "logic=proved" not in log or others:
        print("the crate was not checked (see try_cases.log): %s" % (others[:1] or log[-600:]))
        return False
    answers = [verdict(folder, name, case, errors) for name, case in zip(names, cases)]
    for name, case, answer in zip(names, cases, answers):
        print("%s %s: %s" % (name, case["name"], answer))
    held = answers.count("agrees")
    print("%d agree, %d do not" % (held, len(answers) - held))
    return held == len(answers)


def main():
    parser = argparse.ArgumentParser(description=__doc__, formatter_class=argparse.RawDescriptionHelpFormatter)
    parser.add_argument("cases", nargs="+", help="files of cases")
    parser.add_argument("--out", required=True, help="the folder of the scratch crate")
    parser.add_argument("--count", type=int, default=20, help="how many cases")
    parser.add_argument("--from", dest="start", type=int, default=0, help="the first case's number, smaller scenes first")
    parser.add_argument("--largest", type=int, default=6000, help="the most bytes that a case may print")
    parser.add_argument("--only", default="", help="cases whose name contains this text")
    parser.add_argument("--world", help="a crate with the definitions over pages")
    parser.add_argument("--run", action="store_true", help="check the crate and print what holds")
    arguments = parser.parse_args()
    if arguments.world:
        over_world(arguments.world)
    cases = wanted_cases(arguments)
    if not cases:
        sys.exit("no such case")
    names = write_crate(arguments.out, cases)
    if not arguments.run:
        print("%d cases written to %s" % (len(names), arguments.out))
    elif not run(arguments.out, names, cases):
        sys.exit(1)


if __name__ == "__main__":
    main()
