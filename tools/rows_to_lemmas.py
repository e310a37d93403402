#!/usr/bin/env python3
"""Turns rows of scripts with their answers into lemmas that the plain machine computes.

A row of a rows file is a name behind a '#', the lines of a script, a line '=> 0', what the joins tell, and an empty
line. The lemma of a row says that the script tells this, and is proved by computing both sides.

    tools/rows_to_lemmas.py ROWS [FIRST [COUNT]] > Rows.antt
"""
import sys

HEAD = """\
-- Scripts with what their joins tell, computed: the rows of {source}, written by tools/rows_to_lemmas.py.
use Rattle.std.proofs.Common.{{◌≡◌, ℕ, List, [], ◌∷◌, Option, Some, None, refl, codes}}
use Rattle.std.specs.Fmt.{{digits}}
use Rattle.rpc_model.specs.declared.script.Act.{{Act}}
use Rattle.rpc_model.specs.declared.script.Act.TheVariants.{{Call, Cancel, Reply, Lose, Tick, Join}}
use Rattle.rpc_model.specs.declared.event.End.TheVariants.{{Good, Bad}}
use Rattle.rpc_model.specs.declared.told.Told.{{Told}}
use Rattle.rpc_model.specs.declared.told.Told.TheVariants.{{Ended, Unended, Full, Gone}}
use Rattle.rpc_model.specs.Codes.{{retriable}}
use Rattle.rpc_model.specs.declared.script.Mode.TheVariants.{{Sim}}
use Rattle.{crate}.specs.declared.chan.Chan.{{Chan}}
use Rattle.{crate}.specs.declared.chan.Chan.TheVariants as chan
use Rattle.{crate}.specs.declared.chan.Sub.{{Sub}}
use Rattle.{crate}.specs.declared.chan.Tag.{{Tag}}
use Rattle.{crate}.specs.declared.kinds.MapKind.{{MapKind}}
use Rattle.{crate}.specs.declared.kinds.MapKind.TheVariants as map
use Rattle.{crate}.specs.declared.kinds.MergeKind.{{MergeKind}}
use Rattle.{crate}.specs.declared.kinds.MergeKind.TheVariants as merge
use Rattle.{crate}.specs.Told.{{told, tells, after}}

abbrev runs : ℕ → List (Chan MapKind MergeKind) → List Act → List Told
runs slots chans acts = told (record {{ mode = Sim; slots = slots; servers = 16; chans = chans; serves = []; acts = acts }})

abbrev leaf : List ℕ → ℕ → Option ℕ → Option ℕ → Chan MapKind MergeKind
leaf servers retry backup timeout = chan.Leaf (record {{ servers = servers; retry = retry; backup = backup; timeout = timeout }})

abbrev par : ℕ → ℕ → Option ℕ → List (Sub MapKind MergeKind) → Chan MapKind MergeKind
par fail ok timeout subs = chan.Par (record {{ subs = subs; fail = fail; ok = ok; timeout = timeout }})

abbrev sub : ℕ → MapKind → MergeKind → Sub MapKind MergeKind
sub number m g = record {{ map = m; merge = g; chan = number }}

abbrev sel : ℕ → Option ℕ → List ℕ → Chan MapKind MergeKind
sel retry timeout subs = chan.Sel (record {{ subs = subs; retry = retry; timeout = timeout }})

abbrev part : ℕ → ℕ → Option ℕ → ℕ → ℕ → Option ℕ → MapKind → MergeKind → List Tag → Chan MapKind MergeKind
part parts retry backup fail ok timeout m g tags =
    chan.Part (record {{ parts = parts; tags = tags; map = m; merge = g; retry = retry; backup = backup; fail = fail; ok = ok; timeout = timeout }})

abbrev tag : ℕ → ℕ → ℕ → Tag
tag server number count = record {{ server = server; part = number; of = count }}
"""


def listed(items):
    return "(" + " ∷ ".join(list(items) + ["[]"]) + ")"


def optional(word):
    return "None" if word == "-1" else f"(Some {word})"


def text(word):
    return "[]" if word == "-" else f'(codes "{word}")'


def value(word):
    return word.split("=", 1)[1]


class Reader:
    """Reads the lines of a script: channels and servers by their numbers, in the order of first mention."""

    def __init__(self):
        self.slots, self.chans, self.acts = "1024", [], []
        self.numbers, self.servers = {}, {}

    def server(self, name):
        return str(self.servers.setdefault(name, len(self.servers)))

    def channel(self, name, term):
        self.numbers[name] = str(len(self.chans))
        self.chans.append(term)

    def sub(self, word):
        name, mapper, merger = word.split(":")
        return f"sub {self.numbers[name]} map.{mapper.capitalize()} merge.{merger.capitalize()}"

    def tag(self, word):
        server, numbers = word.rsplit(":", 1)
        number, count = numbers.split("/")
        return f"tag {self.server(server)} {number} {count}"

    def line(self, words):
        kind = words[0]
        if kind == "open":
            self.slots = words[1]
        elif kind == "leaf":
            servers = listed(self.server(name) for name in words[2].split(","))
            retry, backup, timeout = map(value, words[3:6])
            self.channel(words[1], f"leaf {servers} {retry} {optional(backup)} {optional(timeout)}")
        elif kind == "par":
            fail, ok, timeout = map(value, words[2:5])
            self.channel(words[1], f"par {fail} {ok} {optional(timeout)} {listed(map(self.sub, words[5:]))}")
        elif kind == "sel":
            retry, timeout = map(value, words[2:4])
            subs = listed(self.numbers[name] for name in words[4:])
            self.channel(words[1], f"sel {retry} {optional(timeout)} {subs}")
        elif kind == "part":
            retry, backup, fail, ok, timeout = map(value, words[3:8])
            mapper, merger = words[8].split(":")
            tags = listed(map(self.tag, words[9:]))
            self.channel(
                words[1],
                f"part {words[2]} {retry} {optional(backup)} {fail} {ok} {optional(timeout)}"
                f" map.{mapper.capitalize()} merge.{merger.capitalize()} {tags}",
            )
        elif kind == "join":
            self.acts.append(f"Join {words[1]}")
        else:
            self.acts.append(self.event(words[1], words[2], words[3:]))

    def event(self, at, kind, words):
        if kind == "call":
            return f"Call {at} {words[0]} {self.numbers[words[1]]} {text(words[2])}"
        if kind == "cancel":
            return f"Cancel {at} {words[0]}"
        if kind == "tick":
            return f"Tick {at}"
        node, attempt = words[1].split("#")
        if kind == "reply":
            return f"Reply {at} {words[0]} {node} {attempt} {words[2]} {text(words[3])}"
        return f"Lose {at} {words[0]} {node} {attempt} {words[2]}"


def told(words):
    call, kind = words[:2]
    if kind == "ok":
        return f"Ended {call} (Good {text(words[3])}) {words[2]}"
    if kind == "fail":
        return f"Ended {call} (Bad {words[2]}) {words[3]}"
    return {"open": "Unended", "full": "Full", "gone": "Gone"}[kind] + f" {call}"


def rows(path):
    for block in open(path, encoding="utf-8").read().split("\n\n"):
        lines = [line for line in block.split("\n") if line]
        if not any(line.startswith("=> ") for line in lines):
            continue
        end = next(i for i, line in enumerate(lines) if line.startswith("=> "))
        yield lines[0].lstrip("#: "), lines[1:end], lines[end + 1 :]


def lemma(number, name, script, answer):
    reader = Reader()
    for line in script:
        if not line.startswith("#"):
            reader.line(line.split(" "))
    term = f"runs {reader.slots} {listed(reader.chans)}\n    {listed(reader.acts)}"
    wanted = listed(told(line.split(" ")) for line in answer)
    return (
        f"\n-- {name}\nrow-{number} : {term}\n    ≡ {wanted}\n"
        f"unfolding told tells after retriable digits\nrow-{number} = refl\n"
    )


def main():
    path, crate = sys.argv[1], "rpc_model"
    first = int(sys.argv[2]) if len(sys.argv) > 2 else 1
    count = int(sys.argv[3]) if len(sys.argv) > 3 else 10**9
    print(HEAD.format(source=path.rsplit("/", 1)[-1], crate=crate), end="")
    for number, row in enumerate(rows(path), 1):
        if first <= number < first + count:
            print(lemma(number, *row), end="")


main()
