"""Reads what callgrind has counted: the instructions of each function, and by whom it was called."""

import collections
import re

NAMED = re.compile(r"\((\d+)\)(?: (.*))?")


class Counted:
    """`own` has each function's own instructions, `arcs` for each function those that it has called,
    with the instructions of the calls and how many they were."""

    def __init__(self, path):
        self.own = collections.Counter()
        self.arcs = collections.defaultdict(lambda: collections.defaultdict(lambda: [0, 0]))
        names, caller, callee, calls = {}, None, None, None
        with open(path, encoding="utf-8", errors="replace") as lines:
            for line in lines:
                key, _, rest = line.rstrip("\n").partition("=")
                if key in ("fn", "cfn"):
                    number, name = NAMED.match(rest).groups()
                    name = names.setdefault(number, name)
                    caller, callee = (name, None) if key == "fn" else (caller, name)
                elif key == "calls":
                    calls = int(rest.split()[0])
                elif line[0] in "0123456789+-*" and caller:
                    cost = int(line.split()[1])
                    if calls is None:
                        self.own[caller] += cost
                    else:
                        arc = self.arcs[caller][callee]
                        arc[0], arc[1], calls = arc[0] + cost, arc[1] + calls, None

    def whole(self):
        return sum(self.own.values())

    def inclusive(self):
        """The instructions of each function with those that it has called, and how often it was. Of
        one that calls itself they are too many."""
        told, times = collections.Counter(self.own), collections.Counter()
        for caller, called in self.arcs.items():
            for name, (cost, calls) in called.items():
                if name != caller:
                    told[caller] += cost
                times[name] += calls
        return told, times

    def by_layer(self, layer, kind):
        """Own instructions by layer and kind. A function of no layer, as the library's, has a kind;
        what it does counts for its caller's layer, and so does what such a one calls."""
        shares = {}

        def library(name, seen=()):
            """The parts of such a function's inclusive cost that are of each kind."""
            if name in shares or name in seen:
                return shares.get(name, {})
            costs, whole = collections.Counter({kind(name): self.own[name]}), self.own[name]
            for called, (cost, _) in self.arcs.get(name, {}).items():
                whole += cost
                if called != name and layer(called) is None:
                    for what, part in library(called, (*seen, name)).items():
                        costs[what] += cost * part
            shares[name] = {what: cost / whole for what, cost in costs.items()} if whole else {}
            return shares[name]

        told = collections.Counter()
        for name in {*self.own, *self.arcs}:
            if (found := layer(name)) is None:
                continue
            told[found, None] += self.own[name]
            for called, (cost, _) in self.arcs.get(name, {}).items():
                if layer(called) is None:
                    for what, part in library(called).items():
                        told[found, what] += cost * part
        return told
