#!/usr/bin/env python3
"""What a machine of a small card answers of steps, worked out anew from the rules in docs/: another program in another
language than the machine of the compiler.

    steps.py                       writes crates/machine_cases/stdin, the steps, and crates/machine_cases/stdout, the answers
    steps.py --check               whether both are as it would write them
    steps.py --answers             the answers of the steps on standard input
    steps.py --steps CARD FILE..   the steps of these texts, with the homes on the card before and the places behind

The steps are the cases below, those of each text in tests/expected, and those of tests/sources/two_rows.zair.
crates/machine_cases/src/main.rt has their form.
"""
import glob
import json
import os
import sys

TOP = os.path.join(os.path.dirname(os.path.abspath(__file__)), "..")
NAMES = ["Unknown", "Busy", "NotActive", "Limit", "Order", "Gap", "Touch", "PickWrong", "DropWrong", "TrapFull", "PairWrong", "LitAlone", "NotAtRest", "Crossing"]
# What a fault shows, and the words before its numbers.
WORDS = {
    "Unknown": "", "Touch": "row column", "PickWrong": "q", "DropWrong": "q", "TrapFull": "q trap", "PairWrong": "q q",
    "LitAlone": "q", "NotAtRest": "q", "Crossing": "aod row column",
}
AXES = ["row", "column"]


def near(p, q, distance):
    return (p[0] - q[0]) ** 2 + (p[1] - q[1]) ** 2 <= distance**2


def twice(items):
    return {item for item in items if items.count(item) > 1}


class Card:
    """The traps of a card: the point of each, and whether a pulse lights it; and the boxes that a pulse lights."""

    def __init__(self, figures):
        self.figures, self.points, self.lit, self.boxes = figures, [], [], []
        for kind in ["storage", "entangling"]:
            for zone in self.figures[kind]:
                self.add(zone, kind == "entangling")
        self.most = [self.figures["rows"], self.figures["columns"]]
        self.trap_at = {point: trap for trap, point in enumerate(self.points)}
        # The traps by squares that are as wide as a crossing reaches, so that those near a point are in its square or beside it.
        self.squares, self.width = {}, max(1, self.figures["reach"])
        for x, y in self.points:
            self.squares.setdefault((x // self.width, y // self.width), []).append((x, y))

    def add(self, zone, lit):
        own = []
        for j in range(zone["rows"]):
            for i in range(zone["columns"]):
                x, y = zone["x"] + i * zone["dx"], zone["y"] + j * zone["dy"]
                own += [(x, y), (x + zone["pair"], y)] if lit else [(x, y)]
        self.points += own
        self.lit += [lit] * len(own)
        if lit:
            xs, ys, radius = [p[0] for p in own], [p[1] for p in own], self.figures["radius"]
            self.boxes.append((min(xs) - radius, max(xs) + radius, min(ys) - radius, max(ys) + radius))

    def touches(self, p):
        """Some trap is within reach of a point."""
        x, y = p[0] // self.width, p[1] // self.width
        beside = [self.squares.get((x + i, y + j), ()) for i in (-1, 0, 1) for j in (-1, 0, 1)]
        return any(near(p, trap, self.figures["reach"]) for traps in beside for trap in traps)

    def lights(self, p):
        return any(box[0] <= p[0] <= box[1] and box[2] <= p[1] <= box[3] for box in self.boxes)


class Machine:
    """Each condition is asked of a step on its own, whatever others it breaks: `wrongs` has the things that break each, by
    name. A beam is (0 for a row or 1 for a column, its id), a crossing its AOD, its row and its column, a pair the smaller
    qubit and the greater one, all as tuples."""

    def __init__(self, card, homes):
        self.card, self.reach = card, card.figures["reach"]
        self.places = [("trap", home) for home in homes]
        self.beams = [({}, {}) for _ in range(card.figures["aods"])]

    def beams_of(self, aod):
        return self.beams[aod] if aod < len(self.beams) else ({}, {})

    def place(self, q):
        return self.places[q] if q < len(self.places) else ("none",)

    def crossings(self, beams):
        return {(r, c): (x, y) for r, y in beams[0].items() for c, x in beams[1].items()}

    def free(self, aod, point):
        others = [beams for k, beams in enumerate(self.beams) if k != aod]
        return not any(near(point, p, self.reach) for beams in others for p in self.crossings(beams).values())

    def clear(self, aod, point):
        return self.free(aod, point) and not self.card.touches(point)

    def held(self, aod):
        """The qubit at each crossing of an AOD that holds one."""
        return {place[2:]: q for q, place in enumerate(self.places) if place[:2] == ("held", aod)}

    def unknown(self, aods=(), qubits=(), traps=()):
        wrong = [n for n in aods if n >= len(self.beams)] + [n for n in qubits if n >= len(self.places)]
        return [(n,) for n in wrong + [n for n in traps if n >= len(self.card.points)]]

    def spacing(self, after, wrong):
        beams = []
        for axis in [0, 1]:
            ids = sorted(after[axis])
            beams += [(axis, k) for below, k in zip(ids, ids[1:]) if wrong(after[axis][k] - after[axis][below])]
        return beams

    def placed(self, after, is_counted):
        """What is wrong with the beams after an activate or a move."""
        many = [(axis, k) for axis in [0, 1] for k in sorted(after[axis])[self.card.most[axis] :] if is_counted]
        return {
            "Limit": many + [(axis, k) for axis in [0, 1] for k, at in after[axis].items() if at > 1000000],
            "Order": self.spacing(after, lambda d: d <= 0),
            "Gap": self.spacing(after, lambda d: 0 < d < self.card.figures["gap"]),
        }

    def activate(self, aod, listed, atoms):
        old, ids = self.beams_of(aod), [[k for k, _ in beams] for beams in listed]
        after = [{**old[axis], **dict(listed[axis])} for axis in [0, 1]]
        qubits, at = [q for q, _, _ in atoms], [(r, c) for _, r, c in atoms]
        points = self.crossings(after)
        new = {key: p for key, p in points.items() if key[0] in ids[0] or key[1] in ids[1]}

        def is_picked(q, key):
            kind, *trap = self.place(q)
            if q in twice(qubits) or key in twice(at) or key not in new or kind != "trap":
                return False
            return self.card.points[trap[0]] == new[key] and self.free(aod, new[key])

        def do():
            self.beams[aod] = after
            for q, r, c in atoms:
                self.places[q] = ("held", aod, r, c)

        return do, {
            "Unknown": self.unknown([aod], qubits),
            "Busy": [(axis, k) for axis in [0, 1] for k in ids[axis] if k in twice(ids[axis]) or k in old[axis]],
            "NotActive": [(axis, named[1 + axis]) for named in atoms for axis in [0, 1] if named[1 + axis] not in after[axis]],
            **self.placed(after, True),
            "Touch": [key for key, p in new.items() if key not in at and not self.clear(aod, p)],
            "PickWrong": [(q,) for q, r, c in atoms if not is_picked(q, (r, c))],
        }

    def move(self, aod, listed):
        old, ids = self.beams_of(aod), [[k for k, _ in beams] for beams in listed]
        after = [dict(beams) for beams in listed]
        held, points = self.held(aod), self.crossings(after)
        traps = {key: self.card.trap_at[p] for key, p in points.items() if p in self.card.trap_at}

        def is_right(key, p):
            return self.clear(aod, p) or (key in held and key in traps and self.free(aod, p))

        def do():
            self.beams[aod] = after

        return do, {
            "Unknown": self.unknown([aod]),
            "Busy": [(axis, k) for axis in [0, 1] for k in twice(ids[axis])],
            "NotActive": [(axis, k) for axis in [0, 1] for k in set(ids[axis]) ^ set(old[axis])],
            **self.placed(after, False),
            "Touch": [key for key, p in points.items() if not is_right(key, p)],
            "TrapFull": [(held[key], trap) for key, trap in traps.items() if key in held and ("trap", trap) in self.places],
        }

    def deactivate(self, aod, ids, atoms):
        old = self.beams_of(aod)
        points = self.crossings(old)
        gone = {q: key for key, q in self.held(aod).items() if key[0] in ids[0] or key[1] in ids[1]}
        qubits = [q for q, _ in atoms]
        wrong = [q for q in gone if q not in qubits] + list(twice(qubits))
        wrong += [q for q, trap in atoms if q not in gone or self.card.trap_at.get(points[gone[q]]) != trap]

        def do():
            self.beams[aod] = [{k: at for k, at in old[axis].items() if k not in ids[axis]} for axis in [0, 1]]
            for q, trap in atoms:
                self.places[q] = ("trap", trap)

        return do, {
            "Unknown": self.unknown([aod], qubits, [trap for _, trap in atoms]),
            "Busy": [(axis, k) for axis in [0, 1] for k in twice(ids[axis])],
            "NotActive": [(axis, k) for axis in [0, 1] for k in ids[axis] if k not in old[axis]],
            "DropWrong": [(q,) for q in wrong],
        }

    def rest(self, qubits):
        wrong = [(q,) for q in qubits if self.place(q)[0] == "held"]
        return lambda: None, {"Unknown": self.unknown(qubits=qubits), "NotAtRest": wrong}

    def pulse(self, pairs):
        listed = [tuple(sorted(pair)) for pair in pairs]
        lit = {q: self.card.points[place[1]] for q, place in enumerate(self.places) if place[0] == "trap" and self.card.lit[place[1]]}
        found = {(a, b) for a in lit for b in lit if a < b and near(lit[a], lit[b], self.card.figures["radius"])}
        crossings = [(aod, *key, p) for aod, beams in enumerate(self.beams) for key, p in self.crossings(beams).items()]
        return lambda: None, {
            "Unknown": self.unknown(qubits=[q for pair in pairs for q in pair]),
            "PairWrong": (found ^ set(listed)) | twice(listed),
            "LitAlone": [(q,) for q in lit if all(q not in pair for pair in listed)],
            "Crossing": [(aod, r, c) for aod, r, c, p in crossings if self.card.lights(p)],
        }

    def judge(self, head, words):
        """What the step of a line does, and what breaks each of its conditions."""
        if head in ["activate", "move", "deactivate"]:
            (aod,), *parts = sections(words, ["rows", "columns"] + (["atoms"] if head != "move" else []))
            listed = [groups(part, 1 if head == "deactivate" else 2) for part in parts[:2]]
            assert aod < 256 and all(item[0] < 256 for beams in listed for item in beams)
            if head == "activate":
                return self.activate(aod, listed, groups(parts[2], 3))
            if head == "move":
                return self.move(aod, listed)
            return self.deactivate(aod, [[k for (k,) in ids] for ids in listed], groups(parts[2], 2))
        numbers = [int(word) for word in words]
        if head == "one":
            (q,) = numbers
            return self.rest([q])
        if head == "readout":
            return self.rest([q for _, q, _ in groups(numbers, 3)])
        assert head == "pulse"
        return self.pulse([(a, b) for _, a, b in groups(numbers, 3)])

    def wrongs(self, line):
        """The things that break each condition that a step breaks, in the order in which conditions are tested."""
        head, *words = line.split(" ")
        _, wrongs = self.judge(head, words)
        return {name: set(wrongs[name]) for name in NAMES if wrongs.get(name)}

    def step(self, line):
        """Does the step of a line, or tells its fault."""
        head, *words = line.split(" ")
        return self.done(*self.judge(head, words))

    def done(self, do, wrongs):
        """Does a step, or tells its fault: the least thing that breaks the first broken condition."""
        for name in NAMES:
            if wrongs.get(name):
                return told(name, min(wrongs[name]))
        do()
        return "ok"


def told(name, thing):
    if name not in WORDS:
        return f"{name} {AXES[thing[0]]} {thing[1]}"
    words = WORDS[name].split(" ") if WORDS[name] else [""]
    return " ".join([name] + [f"{word} {number}".strip() for word, number in zip(words, thing)])


def groups(numbers, size):
    assert len(numbers) % size == 0
    return [tuple(numbers[k : k + size]) for k in range(0, len(numbers), size)]


def sections(words, names):
    """The numbers before the first name, and those behind each."""
    parts = [[]]
    for word in words:
        if len(parts) <= len(names) and word == names[len(parts) - 1]:
            parts.append([])
        else:
            parts[-1].append(int(word))
    assert len(parts) == len(names) + 1
    return parts


def card_named(name):
    with open(os.path.join(TOP, f"examples/cards/{name}.json")) as file:
        return Card(json.load(file))


CARDS = {name: card_named(name) for name in ["tiny", "square"]}


def begin(words):
    """The machine of a line of homes, or None, and the answer."""
    card, homes = CARDS[words[0]], [int(word) for word in words[1:]]
    wrong = [q for q, h in enumerate(homes) if h >= len(card.lit) or card.lit[h] or h in homes[:q]]
    return (None, f"homes: Home {wrong[0]}") if wrong else (Machine(card, homes), "homes: ok")


def answers(lines):
    machine = None
    for line in lines:
        head, *words = line.split(" ")
        try:
            if head == "#":
                yield line
            elif head == "homes":
                machine, answer = begin(words)
                yield answer
            elif head == "places":
                yield "places:" + "".join(" " + " ".join(map(str, place)) for place in machine.places)
            else:
                yield machine.step(line)
        except (AssertionError, AttributeError, KeyError, IndexError, ValueError):
            yield "?"


TWO, FOUR, SQUARE = "homes tiny 0 1", "homes tiny 0 1 2 3", "homes square 0 1 2 3"
H = "activate 0 rows 0 0 columns 0 0 atoms 0 0 0"
UP = "move 0 rows 0 100 columns 0 0"
DOWN = "deactivate 0 rows 0 columns 0 atoms 0 4"
BOTH = "activate 0 rows 0 0 columns 0 0 1 30 atoms 0 0 0 1 0 1"
LIFT = "move 0 rows 0 100 columns 0 0 1 20"
LAND = "deactivate 0 rows 0 columns 0 1 atoms 0 4 1 5"
FIVE = "activate 0 rows 0 0 1 10 2 20 3 30 4 40 columns atoms"
FIRST_TWO = [TWO, BOTH, LIFT, LAND]
# Of each fault, in the order in which conditions are tested: steps of which the last one breaks its condition by one thing,
# the first of them no other one; that condition and another one, of which the earlier is told; and its condition by several
# things, of which the least is told.
CASES = {
    "Unknown": {
        "one": [[TWO, "activate 2 rows columns atoms"], [TWO, "one 2"], [TWO, "deactivate 0 rows columns atoms 0 8"], [TWO, "pulse 0 0 9"], [TWO, "readout 0 4294967295 1"], [TWO, "move 255 rows columns"]],
        "before": [[TWO, "activate 0 rows 0 0 0 10 columns atoms 9 0 0"], [TWO, H, "readout 0 0 0 1 9 1"], [TWO, H, UP, "pulse 0 0 9"]],
        "least": [[TWO, "activate 3 rows columns atoms 2 0 0"], [TWO, H, "deactivate 9 rows columns atoms 7 8 8 1"], [TWO, "pulse 0 9 0 1 1 8"]],
    },
    "Busy": {
        "one": [[TWO, "activate 0 rows 0 0 0 10 columns atoms"], [TWO, H, "activate 0 rows 0 50 columns atoms"], [TWO, H, "move 0 rows 0 100 columns 0 0 0 0"], [TWO, H, "deactivate 0 rows columns 0 0 atoms 0 0"]],
        "before": [[TWO, "activate 0 rows 0 0 0 10 columns atoms 0 3 0"], [TWO, H, "deactivate 0 rows 0 0 columns 0 atoms"]],
        "least": [[TWO, "activate 0 rows 3 0 3 10 2 0 2 10 columns 0 0 0 9 atoms"], [TWO, H, "activate 0 rows 5 70 5 80 0 60 columns 3 60 3 70 atoms"]],
    },
    "NotActive": {
        "one": [[TWO, "move 0 rows 0 0 columns"], [TWO, H, "move 0 rows 0 100 columns"], [TWO, "deactivate 0 rows 3 columns atoms"], [TWO, "activate 0 rows 0 0 columns atoms 0 0 0"]],
        "before": [[TWO, "move 0 rows 0 1000001 columns"], [TWO, H, "deactivate 0 rows 0 1 columns 0 atoms"]],
        "least": [[TWO, H, "move 0 rows 3 0 columns 2 0"], [TWO, "deactivate 0 rows 7 5 columns 1 atoms"]],
    },
    "Limit": {
        "one": [[TWO, FIVE], [TWO, "activate 0 rows columns 0 1000001 atoms"], [TWO, H, "move 0 rows 0 1000001 columns 0 0"]],
        "before": [[TWO, "activate 0 rows 0 5 1 5 2 20 3 30 4 40 columns atoms"], [TWO, "activate 0 rows 1 0 2 10 3 20 4 30 columns atoms", "activate 0 rows 0 40 columns atoms"]],
        "least": [[TWO, "activate 0 rows 0 0 1 1000001 2 1000011 3 1000021 4 1000031 columns 0 1000001 atoms"], [TWO, FIVE.replace("4 40", "4 40 5 50")], [TWO, "activate 0 rows 9 4294967295 columns 0 4294967295 atoms"]],
    },
    "Order": {
        "one": [[TWO, "activate 0 rows 0 0 1 0 columns atoms"], [TWO, BOTH, "move 0 rows 0 100 columns 0 30 1 0"], [TWO, H, "activate 0 rows 1 0 columns atoms"]],
        "before": [[TWO, "activate 0 rows 0 0 1 5 2 5 columns atoms"], [TWO, "activate 0 rows 0 0 1 5 columns 0 5 1 5 atoms"]],
        "least": [[TWO, "activate 0 rows 0 9 1 9 2 9 columns 0 9 1 9 atoms"], [TWO, "activate 0 rows 2 30 1 20 3 10 0 40 columns atoms"]],
    },
    "Gap": {
        "one": [[TWO, "activate 0 rows 0 0 1 5 columns atoms"], [TWO, BOTH, "move 0 rows 0 50 columns 0 0 1 9"]],
        "before": [[TWO, "activate 0 rows 0 0 1 5 columns 0 0 atoms"]],
        "least": [[TWO, "activate 0 rows 0 0 1 5 2 10 columns 0 0 1 5 atoms"]],
    },
    "Touch": {
        "one": [[TWO, "activate 0 rows 0 0 columns 0 0 atoms"], [TWO, H, "move 0 rows 0 3 columns 0 4"], [TWO, "activate 0 rows 0 50 columns 0 50 atoms", "move 0 rows 0 0 columns 0 90"]],
        "before": [[TWO, "activate 0 rows 0 0 columns 0 0 1 30 atoms 0 0 1"], [TWO, H, "activate 0 rows columns 1 12 atoms", "move 0 rows 0 0 columns 0 30 1 60"]],
        "least": [[TWO, "activate 0 rows 0 0 1 100 columns 0 0 1 20 atoms"], [TWO, "activate 0 rows 0 0 1 100 columns 0 20 1 30 atoms"], [TWO, "activate 0 rows 7 100 1 0 columns 5 20 3 0 atoms"]],
    },
    "PickWrong": {
        "one": [[TWO, "activate 0 rows 0 0 columns 0 0 atoms 1 0 0"], [TWO, "activate 0 rows 0 100 columns 0 0 atoms 1 0 0"], [TWO, "activate 0 rows 0 50 columns 0 50 atoms", "activate 0 rows columns atoms 0 0 0"], [TWO, "activate 0 rows 0 0 columns 0 0 atoms 0 0 0 0 0 0"]],
        "before": [[TWO, "activate 0 rows 0 0 columns 0 0 1 30 atoms 1 0 0"], [TWO, "activate 0 rows 0 0 columns 0 0 1 5 atoms 1 0 0"]],
        "least": [[TWO, "activate 0 rows 0 0 columns 0 0 atoms 1 0 0 0 0 0"], [TWO, "activate 0 rows 0 0 columns 0 0 1 30 atoms 1 0 0 0 0 1"]],
    },
    "DropWrong": {
        "one": [[TWO, H, "deactivate 0 rows 0 columns 0 atoms"], [TWO, H, "deactivate 0 rows 0 columns 0 atoms 0 1"], [TWO, H, "deactivate 0 rows 0 columns atoms 0 0 1 1"], [TWO, H, "deactivate 0 rows columns atoms 0 0"], [TWO, H, "deactivate 0 rows 0 columns atoms 0 0 0 0"], [TWO, H, "move 0 rows 0 50 columns 0 50", "deactivate 0 rows 0 columns atoms 0 0"]],
        "before": [[TWO, H, "deactivate 0 rows 0 0 columns 0 atoms"], [TWO, H, "deactivate 0 rows 0 columns 1 atoms 1 1"]],
        "least": [[TWO, BOTH, "deactivate 0 rows 0 columns atoms 1 0"], [TWO, BOTH, "deactivate 0 rows 0 columns atoms 1 0 0 1"]],
    },
    "TrapFull": {
        "one": [[TWO, H, "move 0 rows 0 0 columns 0 30"], [TWO, BOTH, LIFT, LAND, "activate 0 rows 0 100 columns 0 0 atoms 0 0 0", "move 0 rows 0 100 columns 0 20"]],
        "before": [[TWO, H, "activate 0 rows columns 1 12 atoms", "move 0 rows 0 0 columns 0 30 1 60"]],
        "least": [[FOUR, BOTH, "move 0 rows 0 0 columns 0 60 1 90"], [FOUR, "activate 0 rows 0 0 columns 0 0 1 30 atoms 1 0 1 0 0 0", "move 0 rows 0 0 columns 0 60 1 90"], [FOUR, "activate 0 rows 0 0 columns 0 60 1 90 atoms 2 0 0 3 0 1", "move 0 rows 0 0 columns 0 0 1 30"]],
    },
    "PairWrong": {
        "one": [[TWO, "pulse 0 0 1"], [TWO, "pulse 0 0 0"], [*FIRST_TWO, "pulse 0 0 1 0 1 0"], [TWO, H, UP, DOWN, "activate 0 rows 0 0 columns 0 30 atoms 1 0 0", "move 0 rows 0 100 columns 0 140", "deactivate 0 rows 0 columns 0 atoms 1 7", "pulse 0 1 0"]],
        "before": [[TWO, H, UP, "pulse 0 0 1"], [*FIRST_TWO, "pulse"]],
        "least": [[*FIRST_TWO, "pulse 1 1 0 2 0 1 3 1 1"], [FOUR, "pulse 0 3 2 0 1 3 0 2 1"], [FOUR, BOTH, LIFT, LAND, "pulse 0 3 2 0 1 2"]],
    },
    "LitAlone": {
        "one": [[TWO, H, UP, DOWN, "pulse"]],
        "before": [[TWO, H, UP, DOWN, "activate 1 rows 0 70 columns 0 70 atoms", "pulse"]],
        "least": [[TWO, BOTH, "move 0 rows 0 100 columns 0 0 1 120", "deactivate 0 rows 0 columns 0 1 atoms 0 4 1 6", "pulse"]],
    },
    "NotAtRest": {
        "one": [[TWO, H, "one 0"], [TWO, H, "readout 0 1 0 1 0 1"]],
        "before": [[TWO, H, "readout 0 0 0 1 9 1"]],
        "least": [[TWO, BOTH, "readout 0 1 0 1 0 1"]],
    },
    "Crossing": {
        "one": [[TWO, H, UP, "pulse"], [TWO, H, "move 0 rows 0 40 columns 0 200", "pulse"]],
        "before": [[TWO, H, UP, "pulse 0 0 1"], [TWO, H, UP, DOWN, "activate 1 rows 0 70 columns 0 70 atoms", "pulse"]],
        "least": [
            [TWO, H, UP, "activate 1 rows 0 60 1 130 columns 0 60 1 80 atoms", "pulse"],
            [TWO, "activate 0 rows 3 70 columns 2 70 atoms", "activate 1 rows 0 50 columns 0 50 atoms", "pulse"],
            [TWO, "activate 1 rows 5 70 3 10 4 60 columns 9 70 8 60 10 300 atoms", "pulse"],
        ],
    },
}
SHOWN = {"one": "by one thing", "before": "beside another condition", "least": "by several things"}
# The examples of the machine's definitions.
PARK = [
    SQUARE, BOTH, "move 0 rows 0 10 columns 0 0 1 40", "activate 0 rows 1 30 columns atoms 2 1 0", "move 0 rows 0 130 1 240 columns 0 0 1 20",
    "deactivate 0 rows 0 columns 1 atoms 0 4 1 5", "move 0 rows 1 230 columns 0 0", "deactivate 0 rows 1 columns 0 atoms 2 6",
]
SQUARE_ALL = "activate 0 rows 0 0 1 30 columns 0 0 1 30 atoms 0 0 0 1 0 1 2 1 0"
HALFWAY = [TWO, H, "move 0 rows 0 50 columns 0 0"]
EXAMPLES = {
    "two atoms are entangled": [TWO, "one 1", BOTH, LIFT, LAND, "pulse 1 0 1", "one 1"],
    "one is dropped astray": [TWO, "one 1", BOTH, LIFT, LAND.replace("1 5", "1 6"), "pulse 1 0 1", "one 1"],
    "none is carried": [TWO, "one 1", BOTH, LAND, "pulse 1 0 1", "one 1"],
    "no atom is caught": [TWO, "activate 0 rows 0 0 columns 0 0 1 30 atoms"],
    "one atom is lit": [TWO, H, UP, DOWN, "pulse", "pulse 0 0 1", "pulse 0 0 0"],
    "beams": [
        TWO, "activate 2 rows columns atoms", "activate 0 rows 0 0 0 10 columns atoms", "move 0 rows 0 0 columns", FIVE,
        "activate 0 rows 0 1000001 columns atoms", "activate 0 rows 0 0 1 0 columns atoms", "activate 0 rows 0 0 1 5 columns atoms",
        H, "activate 0 rows 0 50 columns atoms", "move 0 rows 0 100 columns",
    ],
    "atoms": [
        TWO, "activate 0 rows 0 0 columns 0 0 atoms", "activate 0 rows 0 0 columns 0 0 atoms 1 0 0", H, "deactivate 0 rows 0 columns 0 atoms",
        "move 0 rows 0 0 columns 0 30", UP, "one 0", "pulse", "pulse 0 0 1",
    ],
    "beams are parked": PARK,
    "all beams at once": [SQUARE, SQUARE_ALL],
    "crossings keep apart": [*HALFWAY, "activate 1 rows 0 50 columns 0 3 atoms", "activate 1 rows 0 50 columns 0 6 atoms"],
}
OTHERS = {
    "homes": [
        "homes tiny 0 0", "places", "homes tiny 0 4", "places", "homes tiny 3 9 3", "homes tiny 1 4294967295", "homes tiny", "places", "one 0",
        "homes square 3 2 1 0", "places", "homes tiny 3 2 1 0", "places",
    ],
    "no steps": [TWO, "step", "one", "move 0 rows 0 columns", "pulse 0 1", "homes", "homes other 0", "activate 256 rows columns atoms", "move 0 rows 256 0 columns"],
    "no step changes a machine that it doesn't suit": [TWO, H, *[f"move 0 rows 0 {y} columns 0 {x}" for x, y in [(0, 3), (30, 0), (0, 1000001)]], "deactivate 0 rows 0 columns 0 atoms", UP, DOWN],
    "two AODs": [
        TWO, "activate 0 rows 0 50 columns 0 50 atoms", "activate 1 rows 0 53 columns 0 54 atoms", "activate 1 rows 0 53 columns 0 55 atoms",
        "move 1 rows 0 50 columns 0 45", "move 1 rows 0 50 columns 0 44", "deactivate 1 rows 0 columns atoms", "move 0 rows 0 3 columns 0 60",
    ],
    "two AODs at one trap": [
        TWO, "activate 1 rows 0 0 columns 0 30 atoms 1 0 0", "move 1 rows 0 100 columns 0 0", H, UP, "move 1 rows 0 100 columns 0 20", UP,
        "deactivate 1 rows 0 columns 0 atoms 1 5", DOWN, "pulse 0 0 1",
    ],
    "an atom under another AOD": [TWO, "activate 1 rows 0 6 columns 0 0 atoms", "move 1 rows 0 6 columns 0 3", H, "deactivate 1 rows 0 columns 0 atoms", "activate 1 rows 0 6 columns 0 0 atoms"],
    "as far and as near as may be": [
        TWO, "activate 0 rows 0 1000000 columns 0 1000000 atoms", "activate 0 rows 1 1000010 columns atoms", "move 0 rows 0 999990 columns 0 1000000",
        "activate 0 rows 1 1000000 2 1000000 columns atoms", "activate 0 rows 1 999999 columns atoms", "activate 0 rows 1 1000000 columns atoms",
    ],
    "the edge of the light": [TWO, H, *[line for y, x in [(40, 200), (39, 200), (40, 201), (160, 200), (161, 200)] for line in (f"move 0 rows 0 {y} columns 0 {x}", "pulse")]],
    "pairs in both orders": [*FIRST_TWO, "pulse 0 1 0", "pulse 0 0 1", "pulse 0 0 1 0 1 0", "readout 0 0 0 1 1 1", "one 0"],
    "half a drop": [TWO, BOTH, "deactivate 0 rows columns 1 atoms 1 1", "deactivate 0 rows columns 0 atoms 0 0", "deactivate 0 rows 0 columns atoms", "deactivate 0 rows columns atoms"],
}


def lines_of(card, path):
    """The steps of a text, with the homes on the card before and the places behind."""
    yield f"# {os.path.basename(path)}"
    with open(path) as file:
        instructions = [json.loads(line) for line in file]
    for instruction in instructions:
        kind = instruction.get("type")
        if kind == "init":
            yield " ".join(map(str, ["homes", card] + instruction["homes"]))
        elif kind == "1qGate":
            yield from (f"one {gate['q']}" for gate in instruction["gates"])
        elif kind in ["rydberg", "readout"]:
            items = instruction["pairs" if kind == "rydberg" else "reads"]
            yield " ".join(map(str, ["pulse" if kind == "rydberg" else "readout"] + sum(items, [])))
        elif kind == "rearrangeJob":
            for step in instruction["steps"]:
                words = [step["step"], instruction["aod"]]
                for name in ["rows", "columns"] + (["atoms"] if "atoms" in step else []):
                    words += [name] + [n for item in step[name] for n in (item if isinstance(item, list) else [item])]
                yield " ".join(map(str, words))
        else:
            assert kind in ["zair", "end"]
    yield "places"


def shows(name, kind, lines):
    """Whether all steps but the last are legal, and that breaks the condition of this name as the case says."""
    machine, _ = begin(lines[0].split(" ")[1:])
    assert all(machine.step(line) == "ok" for line in lines[1:-1]), lines
    wrongs = machine.wrongs(lines[-1])
    if kind == "before":
        return name in wrongs and len(wrongs) > 1
    is_alone = len(wrongs) == 1 or lines != CASES[name]["one"][0]
    return list(wrongs)[0] == name and is_alone and (len(wrongs[name]) > 1) == (kind == "least")


def cases():
    for name in NAMES:
        for kind, items in CASES[name].items():
            yield f"# {name} {SHOWN[kind]}"
            for lines in items:
                assert shows(name, kind, lines), (name, kind, lines)
                yield from [*lines, "places"]
    for name, lines in [*EXAMPLES.items(), *OTHERS.items()]:
        yield from [f"# {name}", *lines, "places"]
    texts = [("tiny", path) for path in sorted(glob.glob(os.path.join(TOP, "tests/expected/*.zair")))]
    for card, path in texts + [("square", os.path.join(TOP, "tests/sources/two_rows.zair"))]:
        steps = list(lines_of(card, path))
        assert all(answer == "ok" for line, answer in zip(steps, answers(steps)) if line.split(" ")[0] not in ["#", "homes", "places"]), path
        yield from steps


def main():
    if sys.argv[1:] == ["--answers"]:
        lines = answers(line.rstrip("\n") for line in sys.stdin)
    elif sys.argv[1:2] == ["--steps"]:
        lines = (line for path in sys.argv[3:] for line in lines_of(sys.argv[2], path))
    else:
        assert sys.argv[1:] in [[], ["--check"]], __doc__
        return renew(is_check=len(sys.argv) > 1)
    for line in lines:
        print(line)


def renew(is_check):
    steps = list(cases())
    for name, lines in [("stdin", steps), ("stdout", answers(steps))]:
        path, text = os.path.join(TOP, "crates/machine_cases", name), "".join(f"{line}\n" for line in lines)
        if is_check:
            with open(path) as file:
                if file.read() != text:
                    sys.exit(f"crates/machine_cases/{name} isn't what tests/steps.py says: python3 tests/steps.py")
        else:
            with open(path, "w") as file:
                file.write(text)


if __name__ == "__main__":
    main()
