#!/usr/bin/env python3
"""Calls as lists of events, each with what it makes the call do by the plain machine of plain_machine.py.

    tools/plain_calls.py rows ROWS..     the calls of scripts in rows files, each with its own events and marks in order;
                                         a script whose joins tell something else than its row is named, and the status is 1
    tools/plain_calls.py each            each event at each node of a tree of depth 4, before and after each node's end
    tools/plain_calls.py five            five calls over all kinds of node

It writes a call's lines as tools/trace_calls/main.rattle reads them, and behind each a line '= ..' with what has to come of it.
"""
import sys

sys.dont_write_bytecode = True

from plain_machine import Call


# ---- scripts

def optional(word):
    return None if word == "-1" else int(word)


def text(word):
    return "" if word == "-" else word


class Script:
    """Runs the lines of a script, and keeps its calls and what its joins tell."""

    def __init__(self):
        self.slots, self.chans, self.names, self.servers = 1024, [], {}, {}
        self.calls, self.told, self.reached, self.all = {}, [], 0, []

    def server(self, name):
        return self.servers.setdefault(name, len(self.servers))

    def line(self, line):
        words = line.split(" ")
        value = lambda n: words[n].split("=", 1)[1]
        if not line or line[0] == "#":
            return
        if words[0] == "open":
            self.slots = int(words[1])
        elif words[0] == "leaf":
            servers = [self.server(s) for s in words[2].split(",")]
            self.chan(words[1], ("leaf", servers, int(value(3)), optional(value(4)), optional(value(5))))
        elif words[0] == "par":
            subs = [w.split(":") for w in words[5:]]
            self.chan(words[1], ("par", int(value(2)), int(value(3)), optional(value(4)), [(self.names[c], m, g) for c, m, g in subs]))
        elif words[0] == "sel":
            self.chan(words[1], ("sel", int(value(2)), optional(value(3)), [self.names[c] for c in words[4:]]))
        elif words[0] == "part":
            m, g = words[8].split(":")
            tags = []
            for word in words[9:]:
                server, tag = word.split(":")
                tags.append((self.server(server),) + tuple(int(n) for n in tag.split("/")))
            self.chan(words[1], ("part", int(words[2]), int(value(3)), optional(value(4)), int(value(5)), int(value(6)), optional(value(7)), m, g, tags))
        elif words[0] == "join":
            self.join(int(words[1]))
        else:
            self.reached = max(self.reached, int(words[1]))
            if words[2] != "tick":
                self.happens(words[2], words[3:])

    def chan(self, name, chan):
        self.names[name] = len(self.chans)
        self.chans.append(chan)

    def happens(self, word, words):
        number = int(words[0])
        if word == "call":
            if sum(c not in ("full", "told") for c in self.calls.values()) >= self.slots:
                self.calls[number] = "full"
                self.told.append(f"{number} full")
                return
            call = Call(self.chans, number, self.names[words[1]], text(words[2]), self.reached)
            self.calls[number] = call
            self.all.append(call)
            return
        call = self.calls[number]
        if call in ("full", "told"):
            return
        call.weave(self.reached)
        node, attempt = (int(n) for n in words[1].split("#")) if len(words) > 1 else (0, 0)
        if word == "cancel":
            call.apply(("cancel",), self.reached)
        elif word == "reply":
            call.apply(("reply", node, attempt, int(words[2]), text(words[3])), self.reached)
        else:
            call.apply(("lost", node, attempt, int(words[2])), self.reached)

    def join(self, number):
        call = self.calls[number]
        if call in ("full", "told"):
            self.told.append(f"{number} gone")
            return
        self.reached = call.finish(self.reached)
        end = call.root.end
        if end is None:
            self.told.append(f"{number} open")
            return
        self.calls[number] = "told"
        shown = f"ok {call.attempts()} {end[1] or '-'}" if end[0] == "good" else f"fail {end[1]} {call.attempts()}"
        self.told.append(f"{number} {shown}")


def rows_of(path):
    name, lines, wanted, status = "", [], [], None
    for line in open(path).read().split("\n") + [""]:
        if status is None and line.startswith("# ") and not lines:
            name = line[2:]
        elif status is None and line.startswith("=> "):
            status = line[3:]
        elif status is None and line:
            lines.append(line)
        elif line:
            wanted.append(line)
        elif status is not None:
            yield name, lines, wanted, status
            lines, wanted, status = [], [], None


# ---- what the program reads

def shown(done):
    sends, marks, ended = done
    words = [f"{n}#{k}>{s}:{q}" for n, k, s, q in sends] + [f"{n}{'b' if b else 'd'}@{m}" for m, n, b in marks]
    return " ".join(["=", "ended" if ended else "open"] + words)


def word(n):
    return "-1" if n is None else str(n)


def chan_line(chan):
    if chan[0] == "leaf":
        return f"leaf {chan[2]} {word(chan[3])} {word(chan[4])} {' '.join(map(str, chan[1]))}"
    if chan[0] == "par":
        return f"par {chan[1]} {chan[2]} {word(chan[3])} " + " ".join(f"{c} {m} {g}" for c, m, g in chan[4])
    if chan[0] == "sel":
        return f"sel {chan[1]} {word(chan[2])} {' '.join(map(str, chan[3]))}"
    m, g = chan[7], chan[8]
    return f"part {chan[1]} {chan[2]} {word(chan[3])} {chan[4]} {chan[5]} {word(chan[6])} {m} {g} " + " ".join(f"{s} {p} {of}" for s, p, of in chan[9])


def write(call):
    print("new")
    for chan in call.chans:
        print(chan_line(chan))
    print(f"call {call.number} {call.chan} {call.begun} {call.request or '-'}")
    print(shown(call.first))
    for moment, event, done in call.log:
        words = [str(w) for w in event]
        if event[0] == "reply":
            words[4] = event[4] or "-"
        print(" ".join([words[0], str(moment)] + words[1:]))
        print(shown(done))
    end = call.root.end
    print("end")
    print("= none" if end is None else f"= {end[0]} {end[1] or '-'} {call.attempts()}")


# ---- calls of one's own

DEEP = [
    ("leaf", [0, 1, 2], 1, 100, 500),
    ("par", 1, 0, 400, [(0, "index", "cat"), (0, "same", "cat")]),
    ("sel", 1, 300, [1, 0]),
    ("par", 2, 2, 250, [(2, "same", "cat"), (0, "index", "same"), (0, "skip", "cat"), (1, "same", "cat")]),
]


def events_at(node):
    for code in (0, 1003, 1009):
        for attempt in (0, 1):
            yield ("reply", node, attempt, code, "t")
    yield ("lost", node, 0, 1009)
    yield ("backup", node)
    yield ("deadline", node)


def each():
    """Each event at each node, in the call as it began and after each event that ended a node of it."""
    begun = lambda number: Call(DEEP, number, 3, "q", 10)
    for number in (1, 2):
        count = len(begun(number).nodes)
        ways = [[]]
        for node in range(count):
            # what ends this node, or one above it: a reply, a failure that isn't retried, and its deadline
            ways += [[("reply", node, 0, 0, "w")], [("reply", node, 0, 1001, "w")], [("deadline", node)]]
        ways += [[("cancel",)], [("deadline", 1), ("backup", 4)], [("reply", 2, 0, 2001, "w"), ("deadline", 2)]]
        for way in ways:
            for node in range(count + 1):
                for event in events_at(node):
                    call = begun(number)
                    for before in way:
                        call.apply(before, 20)
                    call.apply(event, 30)
                    yield call


def five():
    """Five calls that begin, retry, back up, try, merge and end."""
    flat = [("leaf", [0, 1], 2, 100, 500), ("par", 2, 0, 400, [(0, "index", "cat"), (0, "same", "cat"), (0, "index", "cat")])]
    parts = [("part", 3, 1, 50, 0, 0, 300, "split", "sum", [(0, 0, 3), (1, 1, 3), (2, 2, 3), (3, 1, 3)])]
    tried = flat + [("sel", 2, 900, [1, 0])]
    lists = [
        (flat[:1], 0, [("backup", 0), ("lost", 0, 1, 1009), ("reply", 0, 0, 0, "first")]),
        (flat, 1, [("lost", 1, 0, 1009), ("reply", 3, 0, 0, "c"), ("reply", 2, 0, 0, "b"), ("reply", 1, 1, 0, "a")]),
        (parts, 0, [("reply", 3, 0, 0, "30"), ("lost", 1, 0, 1009), ("backup", 2), ("reply", 2, 0, 0, "7"), ("reply", 1, 1, 0, "5")]),
        (tried, 2, [("reply", 1, 0, 1001, "x"), ("reply", 2, 0, 1001, "x"), ("reply", 3, 0, 1001, "x"), ("deadline", 0)]),
        (DEEP, 3, [("deadline", 3), ("reply", 2, 0, 2001, "x"), ("reply", 1, 0, 0, "o"), ("lost", 6, 0, 1009), ("deadline", 0)]),
    ]
    for chans, chan, events in lists:
        call = Call(chans, 1, chan, "1,2,3", 10)
        for moment, event in enumerate(events):
            call.apply(event, 20 + 10 * moment)
        yield call


def main():
    bad = 0
    if sys.argv[1] == "rows":
        for path in sys.argv[2:]:
            for name, lines, wanted, status in rows_of(path):
                if status != "0":
                    continue
                script = Script()
                for line in lines:
                    script.line(line)
                if script.told != wanted:
                    bad += 1
                    print(f"{name}: {script.told}, not {wanted}", file=sys.stderr)
                for call in script.all:
                    write(call)
    else:
        for call in each() if sys.argv[1] == "each" else five():
            write(call)
    sys.exit(1 if bad else 0)


main()
