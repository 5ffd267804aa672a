#!/usr/bin/env python3
"""Writes a scene for a measurement to standard output.

  scenes.py reading N      about N bytes of lines, most of them long `mwrite` lines of hexadecimal bytes
  scenes.py printing N     a run of about N entries: waits that time out
  scenes.py messages N     N requests and replies between two applications
  scenes.py bridge N       N requests and replies between a client of the normal world and an application
  scenes.py members N      one set with N members (at most 64), of which the last has the event, waited on 200 times
  scenes.py actors N       N threads that each make 50 sets and close them
  scenes.py empty 0        no application
"""
import sys


def reading(size):
    lines = ["scene 1", "app one", "thread", "memref 65536 rw as r"]
    line = "mwrite $r 0 hex:" + "a5" * 2000
    while size > 0:
        lines.append(line)
        size -= len(line) + 1
    return lines


def printing(entries):
    # each of the waits has three entries: its beginning, idle, its end
    waits, starts = entries // 3, 1
    while waits // starts > 16_000:
        starts += 1
    if starts > 4:
        sys.exit("scenes.py: more entries than four starts of 16,384 commands have")
    manifest = '{"uuid": "00000000-0000-0000-0000-000000000001"%s}'
    flags = ', "mgmt_flags": {"restart_on_exit": true}' if starts > 1 else ""
    lines = ["scene 1", "app one " + manifest % flags, "thread", "set as s"]
    lines += ["repeat %d" % (waits // starts), "wait $s 5", "end"]
    return lines


def messages(rounds):
    server = ["app server", "thread", "port com.example.bench 2 64 ta as p", "wait $p -1", "accept $p as c", "repeat %d" % rounds]
    server += ["wait $c -1", "get $c as m", "read $c $m 0 64 0", "put $c $m", "send $c fill:32:66", "end", "wait $c -1", "close $c"]
    client = ["app client", "thread", "connect com.example.bench sync+wait as c", "repeat %d" % rounds]
    client += ["send $c fill:32:65", "wait $c -1", "get $c as m", "read $c $m 0 64 0", "put $c $m", "end", "close $c"]
    return ["scene 1", *server, *client]


def bridge(rounds):
    server = ["app server", "thread", "port com.example.bench 2 64 ns as p", "wait $p -1", "accept $p as c", "repeat %d" % rounds]
    server += ["wait $c -1", "get $c as m", "read $c $m 0 64 0", "put $c $m", "send $c fill:32:66", "end", "wait $c -1", "close $c"]
    client = ["client one", "nconnect com.example.bench as k", "repeat %d" % rounds, "nsend $k fill:32:65", "nrecv $k -1", "end", "nclose $k"]
    return ["scene 1", *server, *client]


def members(count):
    # A set whose last member alone has the event. A table has 64 numbers, so the members are duplicates of one end, and
    # all 64 numbers are labels only where the set's own number becomes one as well: its set then goes by another.
    lines = ["scene 1", "app one", "thread", "port com.example.bench 2 64 ta as p", "connect com.example.bench async as c"]
    lines += ["accept $p as d", "send $c text:x", "set as s"]
    quiet = ["add $s $p 0 0", "add $s $c 8 0", "add $s $d 0 0"][: count - 1]
    quiet += ["dup $c as e", "add $s $e 8 0"] * min(count - 1 - len(quiet), 60)
    named = "$s"
    loud = ["dup $d as e", "add $s $e 8 0"]
    if count == 64:
        named = "$t"
        loud = ["close $e", "dup $s as t", "close $s", "dup $d as e", "add $t $e 8 0"]
    return lines + quiet + loud + ["repeat 200", "wait %s 0" % named, "end"]


def actors(count):
    lines = ["scene 1"]
    for k in range(count):
        if k % 4 == 0:
            lines.append("app a%d" % (k // 4))
        lines += ["thread", "repeat 50", "set as s", "close $s", "end"]
    return lines


KINDS = {"reading": reading, "printing": printing, "messages": messages, "bridge": bridge, "members": members, "actors": actors, "empty": lambda _: ["scene 1"]}


def main():
    if len(sys.argv) != 3 or sys.argv[1] not in KINDS:
        sys.exit(__doc__)
    print("\n".join(KINDS[sys.argv[1]](int(sys.argv[2]))))


main()
