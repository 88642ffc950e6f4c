#!/usr/bin/env python3
"""What `compile CARD FILE` answers, worked out anew from the rules in docs/, in another language and by another hand than the
compiler: the text or the line of the refusal on standard output, and the status.

    plan.py CARD FILE       an answer for a card, which is `@tiny`, `@standard` or a file, and a source
    plan.py CARD FILE ZAIR  the same, where ZAIR is a text: which greatest set of gates is kept between two pulses, to which
                            traps the other atoms go and to which sites the new gates is taken from that text, since the
                            rules leave it open on a tie; where what it takes isn't greatest or least, the status is 99
    plan.py --make N SEED   a source of N statements, drawn by the seed, in which names, sizes and indices are right
    plan.py --break N SEED  a source of N statements, drawn by the seed, in which a few things may be wrong
    plan.py --pairs N K     the source that `make N K` writes
"""
import json
import math
import os
import random
import sys

import cards
import front

EXAMPLES = os.path.join(os.path.dirname(os.path.abspath(__file__)), "../examples/cards")


class Card:
    """The traps of a card by number, storage first, and then two for each site, the left one first."""

    def __init__(self, card):
        self.figures, self.points, self.zones, zones = card, [], [], 0
        for kind in ("storage", "entangling"):
            for zone in card[kind]:
                for row in range(zone["rows"]):
                    for column in range(zone["columns"]):
                        x, y = zone["x"] + column * zone["dx"], zone["y"] + row * zone["dy"]
                        self.points += [(x, y)] + ([(x + zone["pair"], y)] if kind == "entangling" else [])
                self.zones += [zones] * (len(self.points) - len(self.zones))
                zones += 1
            if kind == "storage":
                self.storage = len(self.points)
        self.sites = (len(self.points) - self.storage) // 2
        self.times, self.rows = {}, {}
        self.trap_at = {point: trap for trap, point in enumerate(self.points)}
        for trap, (x, y) in enumerate(self.points[: self.storage]):
            self.rows.setdefault(y, []).append((x, trap))

    def move_time(self, dx, dy):
        """The least whole t with acceleration^2 * t^4 >= (dx^2 + dy^2) * 10^22."""
        if (dx, dy) not in self.times:
            square, enough = self.figures["accel"] ** 2, (dx**2 + dy**2) * 10**22
            t = math.isqrt(math.isqrt(enough // square))
            while square * t**4 < enough:
                t += 1
            self.times[dx, dy] = t
        return self.times[dx, dy]


CARDS = {}


def card_of(data):
    """A card from the bytes of its text."""
    if data not in CARDS:
        CARDS[data] = Card(cards.parsed(data))
    return CARDS[data]


def built_in(name):
    """The text of a built-in card."""
    with open(f"{EXAMPLES}/{name[1:]}.json", "rb") as file:
        return file.read()


def order(values):
    """How two values stand to one another: less, equal or greater."""
    return (values[0] > values[1]) - (values[0] < values[1])


class Move:
    """The atom of a qubit goes from one trap to another."""

    def __init__(self, card, q, source, target):
        self.q, self.target = q, target
        self.source_at, self.target_at = card.points[source], card.points[target]
        self.zones = card.zones[source], card.zones[target]
        self.distance = sum(abs(a - b) for a, b in zip(self.source_at, self.target_at))

    def fits(self, other):
        """The two are compatible: from one zone to one zone, and on each axis the sources compare as the targets do."""
        axes = range(2)
        return self.zones == other.zones and all(
            order((self.source_at[k], other.source_at[k])) == order((self.target_at[k], other.target_at[k])) for k in axes
        )


def groups(card, moves):
    """The moves of a phase by first fit, the farthest first."""
    found = []
    for move in sorted(moves, key=lambda m: (-m.distance, m.q)):
        for group in found:
            columns, rows = (len({m.source_at[k] for m in group + [move]}) for k in range(2))
            if all(move.fits(m) for m in group) and rows <= card.figures["rows"] and columns <= card.figures["columns"]:
                group.append(move)
                break
        else:
            found.append([move])
    return found


def job(card, group):
    """The steps of a group, how long they take, and what they use beside an AOD: the rows are loaded one after another, all fly,
    and the rows are unloaded one after another; what isn't at its place is parked beside it."""
    park = card.figures["park"]
    rows = sorted({(m.source_at[1], m.target_at[1]) for m in group})
    columns = sorted({(m.source_at[0], m.target_at[0]) for m in group})
    row_of = {source: i for i, (source, _) in enumerate(rows)}
    column_of = {source: j for j, (source, _) in enumerate(columns)}
    atoms = [{} for _ in rows]
    for m in group:
        atoms[row_of[m.source_at[1]]][column_of[m.source_at[0]]] = m
    steps, loaded, held = [], [], {}

    def move(side, exact_row, row):
        """All active beams move: this row to its place, if there is one, and the columns to serve a row."""
        steps.append(
            {
                "step": "move",
                "rows": [[i, rows[i][side] + (0 if i == exact_row else park)] for i in loaded],
                "columns": [[j, columns[j][side] + (0 if j in atoms[row] else park)] for j in sorted(held)],
            }
        )

    for i, row in enumerate(atoms):
        fresh = [j for j in sorted(row) if j not in held]
        steps.append(
            {
                "step": "activate",
                "rows": [[i, rows[i][0]]],
                "columns": [[j, columns[j][0]] for j in fresh],
                "atoms": [[row[j].q, i, j] for j in sorted(row)],
            }
        )
        loaded.append(i)
        held.update({j: i for j in row})
        if i + 1 < len(rows):
            move(0, None, i + 1)
    move(1, 0, 0)
    for i, row in enumerate(atoms):
        last = sorted(j for j in held if held[j] == i)
        steps.append({"step": "deactivate", "rows": [i], "columns": last, "atoms": [[row[j].q, row[j].target] for j in sorted(row)]})
        loaded.remove(i)
        for j in last:
            del held[j]
        if i + 1 < len(rows):
            move(1, i + 1, i + 1)
    grids = [card.trap_at[column[side], row[side]] for side in range(2) for row in rows for column in columns]
    return {"type": "rearrangeJob", "steps": steps}, duration(card, steps), [("qubit", m.q) for m in group] + [("trap", t) for t in grids]


def duration(card, steps):
    """How long the steps take: a move takes the move time of the greatest changes of its columns and rows."""
    last, total = {"rows": {}, "columns": {}}, 0
    for step in steps:
        change = {axis: max([abs(at - last[axis].get(id, at)) for id, at in step[axis]], default=0) for axis in last} if step["step"] == "move" else None
        total += card.move_time(change["columns"], change["rows"]) if change else card.figures[step["step"]]
        if step["step"] != "deactivate":
            for axis in last:
                last[axis].update(step[axis])
    return total


def jobs(card, moves):
    """The jobs of a phase of moves, given as qubit, source and target."""
    return [job(card, group) for group in groups(card, [Move(card, *move) for move in moves])]


def stages(ops, sites):
    """The pairs of each pulse, and the one-qubit gates of each slot: each pair has the least number from its floor on that has
    room, and each gate its floor, which is one more than the greatest number of an earlier pair on one of its qubits or
    before a fence that stands between."""
    pulses, slots, floors, fenced, most = [], {}, {}, 0, 0
    for number, op in enumerate(ops):
        if op[0] == "fence":
            fenced = most
        if op[0] == "one":
            slots.setdefault(max(fenced, floors.get(op[1], 0)), []).append({"op": number, "q": op[1], "u": op[2]})
        if op[0] == "two":
            pulse = max(fenced, *(floors.get(q, 0) for q in op[1:]))
            while pulse < len(pulses) and len(pulses[pulse]) == sites:
                pulse += 1
            if pulse == len(pulses):
                pulses.append([])
            pulses[pulse].append([number, *op[1:]])
            floors.update({q: pulse + 1 for q in op[1:]})
            most = max(most, pulse + 1)
    return pulses, [slots.get(t, []) for t in range(len(pulses) + 1)]


class Wrong(Exception):
    """A choice between two pulses that the rules don't allow."""


def greatest(edges, count):
    """How many pairs a greatest set has in which no end comes twice, and such a set, as the partner of each right end; the
    edges give the left ends of each right end."""
    partner = {}

    def found(right, seen):
        for left in edges[right]:
            if left not in seen:
                seen.add(left)
                if left not in partner or found(partner[left], seen):
                    partner[left] = right
                    return True
        return False

    size = sum(found(right, set()) for right in range(count))
    return size, {right: left for left, right in partner.items()}


def least(costs):
    """The columns of an assignment of the rows of a table at the least cost, by shortest augmenting paths."""
    rows, columns = len(costs), len(costs[0]) if costs else 0
    row_price, column_price, row_of = [0] * (rows + 1), [0] * (columns + 1), [0] * (columns + 1)
    for row in range(1, rows + 1):
        row_of[0], column = row, 0
        best, before, seen = [math.inf] * (columns + 1), [0] * (columns + 1), [False] * (columns + 1)
        while row_of[column]:
            seen[column] = True
            here, delta, next_column = row_of[column], math.inf, 0
            line, price = costs[here - 1], row_price[here]
            for k in range(1, columns + 1):
                if not seen[k]:
                    reduced = line[k - 1] - price - column_price[k]
                    if reduced < best[k]:
                        best[k], before[k] = reduced, column
                    if best[k] < delta:
                        delta, next_column = best[k], k
            for k in range(columns + 1):
                if seen[k]:
                    row_price[row_of[k]] += delta
                    column_price[k] -= delta
                else:
                    best[k] -= delta
            column = next_column
        while column:
            row_of[column] = row_of[before[column]]
            column = before[column]
    answer = [0] * rows
    for column in range(1, columns + 1):
        if row_of[column]:
            answer[row_of[column] - 1] = column - 1
    return answer


def homes(card, qubits, ops):
    """The qubits by their first pair, those without one last, rest in the storage traps by nearness to site 0."""
    first = {}
    for number, op in enumerate(ops):
        if op[0] == "two":
            for q in op[1:]:
                first.setdefault(q, number)
    x0, y0 = card.points[card.storage]
    traps = sorted(range(card.storage), key=lambda t: (abs(card.points[t][1] - y0), abs(card.points[t][0] - x0), t))
    used = sorted(range(qubits), key=lambda q: (first.get(q, len(ops)), q))
    return [trap for _, trap in sorted(zip(used, traps))]


def taken_from(card, text):
    """The moves between the pulses of a text: for each pulse, where each atom goes to in storage, and where to a site."""
    found, home, site = [], {}, {}
    for line in map(json.loads, text):
        if line["type"] == "rydberg":
            found.append((home, site))
            home, site = {}, {}
        for step in line.get("steps", []):
            if step["step"] == "deactivate":
                for q, trap in step["atoms"]:
                    (home if trap < card.storage else site)[q] = trap
    return found


class Between:
    """What is done between two pulses, where the atoms rest at these traps. What the rules leave open is as in the moves of a
    text, where they are given."""

    def __init__(self, card, at, before, pulse, moves):
        self.card, self.at, self.moves = card, at, moves
        self.before, self.pulse = [set(pair) for _, *pair in before], [pair for _, *pair in pulse]
        self.returns = self.returning(self.staying())
        self.arrivals = self.arriving()

    def distance(self, trap, other):
        return sum(abs(a - b) for a, b in zip(self.card.points[trap], self.card.points[other]))

    def site(self, q):
        return (self.at[q] - self.card.storage) // 2 if self.at[q] >= self.card.storage else None

    def staying(self):
        """The qubits that stay: those that two gates of a greatest set share."""
        of = {q: k for k, pair in enumerate(self.before) for q in pair}
        size, partners = greatest([sorted({of[q] for q in pair if q in of}) for pair in self.pulse], len(self.pulse))
        if self.moves is not None:
            stay, partners = set(of) - set(self.moves[0]), {}
            for k, pair in enumerate(self.pulse):
                old = {of[q] for q in pair if q in stay}
                if len(old) > 1:
                    raise Wrong("a gate is kept at two sites")
                partners.update({k: min(old)} if old else {})
            if len(set(partners.values())) < len(partners) or len(partners) != size:
                raise Wrong(f"{len(partners)} gates are kept where {size} can be")
        stay_all = {q for k, old in partners.items() for q in self.pulse[k] if q in self.before[old]}
        if self.moves is not None and stay_all != stay:
            raise Wrong("a qubit stays that needn't, or leaves that needn't")
        return stay_all

    def chosen(self, rows, offered, cost, taken, what):
        """A place for each row among those that are offered, at the least cost; the taken ones, where they are that."""
        costs = [[cost(row, place) for place in offered] for row in rows]
        best = [offered[column] for column in least(costs)]
        if taken is None:
            return best
        total = lambda places: sum(cost(row, place) for row, place in zip(rows, places))
        if len(set(taken)) < len(taken) or not set(taken) <= set(offered) or total(taken) != total(best):
            raise Wrong(f"{what} aren't placed at the least cost")
        return taken

    def nearest(self, place, empty, count):
        """So many of these traps that are nearest to a place, or all of them: the rows are taken by their distance until no
        trap of a farther one can be among them."""
        found = []
        for rise, row in sorted((abs(y - place[1]), row) for y, row in self.card.rows.items()):
            if len(found) >= count and rise > sorted(found)[count - 1][0]:
                break
            here = sorted((rise + abs(x - place[0]), trap) for x, trap in row if trap in empty)
            found += here[:count]
        return [trap for _, trap in sorted(found)[:count]]

    def returning(self, stay):
        """The atoms at the sites that don't stay go to empty storage traps."""
        leaving = sorted(q for pair in self.before for q in pair if q not in stay)
        empty = set(range(self.card.storage)).difference(self.at)
        cost = lambda q, trap: self.distance(self.at[q], trap)
        # Of the nearest traps of an atom, one more than atoms, one is left, so none farther is needed.
        offered = sorted({t for q in leaving for t in self.nearest(self.card.points[self.at[q]], empty, len(leaving) + 1)})
        if self.moves is not None and set(self.moves[0]) != set(leaving):
            raise Wrong("other atoms leave than those that don't stay")
        taken = None if self.moves is None else [self.moves[0][q] for q in leaving]
        if taken is not None and set(taken) <= empty:
            offered = sorted(set(offered) | set(taken))
        moves = []
        for q, trap in zip(leaving, self.chosen(leaving, offered, cost, taken, "returns")):
            moves.append((q, self.at[q], trap))
            self.at[q] = trap
        return moves

    def arriving(self):
        """Held gates are completed at their site, and the others go to free sites."""
        moves, held = [], set()
        fresh = [pair for pair in self.pulse if self.site(pair[0]) is None and self.site(pair[1]) is None]
        for pair in self.pulse:
            for q, other in (pair, pair[::-1]):
                if self.site(q) is not None:
                    held.add(self.site(q))
                    if self.site(other) is None:
                        moves.append((other, self.at[other], 2 * self.card.storage + 4 * self.site(q) + 1 - self.at[q]))
        sides = [sorted(pair, key=lambda q: (self.card.points[self.at[q]][0], self.at[q])) for pair in fresh]
        traps = lambda site: (self.card.storage + 2 * site, self.card.storage + 2 * site + 1)
        cost = lambda pair, site: sum(self.distance(self.at[q], trap) for q, trap in zip(pair, traps(site)))
        free = [site for site in range(self.card.sites) if site not in held]
        taken = None if self.moves is None else [(self.moves[1].get(a, 0) - self.card.storage) // 2 for a, _ in sides]
        for pair, site in zip(sides, self.chosen(sides, free, cost, taken, "new gates")):
            moves += [(q, self.at[q], trap) for q, trap in zip(pair, traps(site))]
        for q, _, trap in moves:
            self.at[q] = trap
        return moves


class Schedule:
    """When instructions begin and end: the last end of each thing that they use."""

    def __init__(self, card):
        self.card, self.ends = card, {}

    def timed(self, instruction, duration, used):
        """The instruction begins at the greatest end of an earlier one that uses something that it uses. A job is made by the
        AOD whose last job ends first, of several by that of least number."""
        if instruction["type"] == "rearrangeJob":
            instruction["aod"] = min(range(self.card.figures["aods"]), key=lambda aod: (self.ends.get(("aod", aod), 0), aod))
            used = used + [("aod", instruction["aod"])]
        instruction["begin"] = max(self.ends.get(thing, 0) for thing in used)
        instruction["end"] = instruction["begin"] + duration
        self.ends.update(dict.fromkeys(used, instruction["end"]))
        return instruction


def plan(card, qubits, ops, text=None):
    yield {"type": "zair", "version": 1}
    figures, at, schedule = card.figures, homes(card, qubits, ops), Schedule(card)
    pulses, slots = stages(ops, card.sites)
    taken = None if text is None else taken_from(card, text)
    if taken is not None and len(taken) != len(pulses):
        raise Wrong(f"{len(taken)} pulses for {len(pulses)}")
    laser = lambda qubits: [("laser",)] + [("qubit", q) for q in qubits]
    lit = [("trap", trap) for trap in range(card.storage, len(card.points))]
    yield {"type": "init", "homes": list(at), "begin": 0, "end": 0}
    for t, gates in enumerate(slots):
        if gates:
            yield schedule.timed({"type": "1qGate", "gates": gates}, figures["one"] * len(gates), laser(gate["q"] for gate in gates))
        if t == len(pulses):
            break
        between = Between(card, at, pulses[t - 1] if t else [], pulses[t], taken and taken[t])
        for moves in (between.returns, between.arrivals):
            for moving in jobs(card, moves):
                yield schedule.timed(*moving)
        used = laser(q for _, *pair in pulses[t] for q in pair) + lit
        yield schedule.timed({"type": "rydberg", "pairs": pulses[t]}, figures["pulse"], used)
    reads = [[number, op[1], op[2]] for number, op in enumerate(ops) if op[0] == "read"]
    if reads:
        yield schedule.timed({"type": "readout", "reads": reads}, figures["readout"], laser(q for _, q, _ in reads))


def tally(lines):
    """The last line: what is counted in the lines of a program. A pair is kept where one of its qubits is in a pair of the last
    `rydberg` line before and in no `deactivate` between the two."""
    of = {kind: [line for line in lines if line["type"] == kind] for kind in ("init", "1qGate", "rydberg", "rearrangeJob", "readout")}
    dropped = lambda line: [q for step in line.get("steps", []) if step["step"] == "deactivate" for q, _ in step["atoms"]]
    pulses, kept = [k for k, line in enumerate(lines) if line["type"] == "rydberg"], 0
    for last, this in zip(pulses, pulses[1:]):
        stay = {q for _, *pair in lines[last]["pairs"] for q in pair} - {q for line in lines[last:this] for q in dropped(line)}
        kept += sum(not stay.isdisjoint(pair) for _, *pair in lines[this]["pairs"])
    return {
        "type": "end",
        "gates": sum(len(line["gates"]) for line in of["1qGate"]),
        "jobs": len(of["rearrangeJob"]),
        "kept": kept,
        "moved": sum(len(dropped(line)) for line in of["rearrangeJob"]),
        "pairs": sum(len(line["pairs"]) for line in of["rydberg"]),
        "pulses": len(pulses),
        "qubits": len(of["init"][0]["homes"]),
        "reads": sum(len(line["reads"]) for line in of["readout"]),
        "time": max(line["end"] for line in lines if "end" in line),
    }


def judged(card, source, text=None):
    """The status, the line on standard error, and the lines of the text, for the bytes of a card and of a source; what the
    rules leave open is as in the lines of a text, where they are given."""
    refusal = cards.answer(card)
    if not refusal[0].isdigit():
        return 6, f"card refused: {refusal}\n", []
    card = card_of(card)
    try:
        scope = front.program(source)
        ops = front.native(scope)
    except front.Refused as fault:
        return 1, "source refused: %s at %d\n" % fault.args, []
    except front.Limited as fault:
        return 11, "limit: %s %d\n" % fault.args, []
    if scope.qubits > card.storage:
        return 7, f"too many qubits: {scope.qubits} for {card.storage} traps\n", []
    try:
        lines = list(plan(card, scope.qubits, ops, text))
    except Wrong as fault:
        return 99, f"{fault}\n", []
    lines.append(tally(lines))
    return 0, "", [json.dumps(line, sort_keys=True, separators=(",", ":")) + "\n" for line in lines]


def pairs_source(n, k):
    """The source of n qubits and k pairs, drawn by a linear congruence."""
    state = 1

    def drawn():
        nonlocal state
        state = (state * 1103515245 + 12345) % 2147483648
        return state // 65536

    text = f'OPENQASM 2.0;\ninclude "qelib1.inc";\nqreg q[{n}];\n'
    for _ in range(k):
        a, b = drawn() % n, drawn() % (n - 1)
        b += b >= a
        text += f"t q[{a}];\ncx q[{a}],q[{b}];\n"
    return text


def angle(draw, names, depth=0):
    """An expression over the names, with signs, functions and parentheses."""
    kind = draw.randint(0, 9 if depth < 4 else 3)
    if kind <= 1:
        return draw.choice(["0", "1", "2.5", ".5e1", "3.", "7e-2", "0.25"])
    if kind == 2:
        return "pi"
    if kind == 3:
        return draw.choice(names) if names else "pi"
    if kind == 4:
        return "-" + angle(draw, names, depth + 1)
    if kind == 5:
        return draw.choice(front.FUNCTIONS) + "(" + angle(draw, names, depth + 1) + ")"
    if kind == 6:
        return "(" + angle(draw, names, depth + 1) + ")"
    return angle(draw, names, depth + 1) + draw.choice("+-*/^") + angle(draw, names, depth + 1)


HEADER = {}


class Drawing:
    """A source that is drawn statement by statement. With `wrong`, a few choices are made without care."""

    def __init__(self, draw, wrong):
        self.draw, self.wrong = draw, wrong
        self.gates = {"U": (3, 1), "CX": (0, 2)}
        self.registers, self.bits, self.names = {}, {}, set()
        self.read, self.left = set(), 4
        self.included = False

    def slips(self):
        return self.wrong and self.draw.random() < 0.06

    def name(self, stem):
        if self.slips():
            return self.draw.choice(sorted(self.names | {"cx", "swap", "h"}))
        fresh = stem + str(len(self.names))
        self.names.add(fresh)
        return fresh

    def header(self):
        if not HEADER:
            base = front.Scope()
            front.read_into(base, front.HEADER_TEXT)
            HEADER.update({n: m[2:] for n, m in base.own.items()})
            HEADER["cz"] = (0, 2)
        self.gates.update({n: s for n, s in HEADER.items() if n not in self.names})
        self.included = True
        return 'include "qelib1.inc";'

    def register(self):
        size = self.draw.randint(0, self.left)
        self.left -= size
        name = self.name("q")
        self.registers[name] = size
        return f"qreg {name}[{size}];"

    def bits_register(self):
        size, name = self.draw.randint(0, 3), self.name("c")
        self.bits[name] = size
        return f"creg {name}[{size}];"

    def places(self):
        return [(n, i) for n, size in self.registers.items() for i in range(size) if self.slips() or (n, i) not in self.read]

    def written(self, place):
        index = place[1] + (1 if self.slips() else 0)
        return f"{place[0]}[{index}]"

    def call(self):
        name = self.draw.choice(sorted(self.gates))
        params, args = self.gates[name]
        exprs = ",".join(angle(self.draw, []) for _ in range(params + (1 if self.slips() and name != "CX" else 0)))
        if self.draw.random() < 0.3 and name not in ("U",):
            whole = [n for n in self.registers if not any(p[0] == n for p in self.read)]
            if whole:
                first = self.draw.choice(whole)
                same = [n for n in whole if self.registers[n] == self.registers[first]]
                others = [p for p in self.places() if p[0] not in same]
                if args - 1 <= len(others):
                    words = [first] + [self.written(p) for p in self.draw.sample(others, args - 1)]
                    return self.spelled(name, exprs, words)
        free = self.places()
        if len(free) < args:
            return f"barrier {self.draw.choice(sorted(self.registers))};"
        return self.spelled(name, exprs, [self.written(p) for p in self.draw.sample(free, args)])

    def spelled(self, name, exprs, words):
        if self.slips() and len(words) > 1:
            words[1] = words[0]
        return name + (f"({exprs})" if exprs or (name not in ("CX",) and self.draw.random() < 0.2) else "") + " " + ",".join(words) + ";"

    def gate(self):
        name = self.name("g")
        params = [f"p{i}" for i in range(self.draw.randint(0, 2))]
        args = [f"a{i}" for i in range(self.draw.randint(1, 3))]
        body = []
        for _ in range(self.draw.randint(0, 4)):
            inner = self.draw.choice(sorted(self.gates))
            count, width = self.gates[inner]
            if width > len(args):
                body.append("barrier " + ",".join(args) + ";")
                continue
            exprs = ",".join(angle(self.draw, params if not self.slips() else params + ["z"]) for _ in range(count))
            body.append(self.spelled(inner, exprs, self.draw.sample(args, width)))
        text = f"gate {name}" + (f"({','.join(params)})" if params else "") + f" {','.join(args)} {{ {' '.join(body)} }}"
        self.gates[name] = (len(params), len(args))
        return text

    def measure(self):
        free, bits = self.places(), [(n, i) for n, size in self.bits.items() for i in range(size)]
        if not free or not bits:
            return self.bits_register()
        place = self.draw.choice(free)
        self.read.add(place)
        return f"measure {self.written(place)} -> {self.written(self.draw.choice(bits))};"

    def oddity(self):
        return self.draw.choice(["reset q0;", "if(c0==1) U(0,0,0) q0[0];", "opaque o(a) b;", 'include "x.inc";', "h;", "U(0,0) q0;", "$"])

    def statements(self, count):
        yield "OPENQASM 2.0;" if not self.slips() else "OPENQASM 3.0;"
        if self.draw.random() < 0.8:
            yield self.header()
        yield self.register()
        for _ in range(count):
            kinds = [self.call] * 8 + [self.gate, self.bits_register, self.measure]
            if self.left:
                kinds.append(self.register)
            if self.slips():
                kinds = [self.oddity]
            yield self.draw.choice(kinds)()


def main():
    if sys.argv[1] in ("--make", "--break"):
        drawing = Drawing(random.Random(int(sys.argv[3])), sys.argv[1] == "--break")
        blanks = ["\n", " ", "\t", "\r\n", " // CX a[0],b[0];\n"]
        sys.stdout.write("".join(s + drawing.draw.choice(blanks) for s in drawing.statements(int(sys.argv[2]))))
        return 0
    if sys.argv[1] == "--pairs":
        sys.stdout.write(pairs_source(int(sys.argv[2]), int(sys.argv[3])))
        return 0
    name, source, *text = sys.argv[1:]
    with open(source, "rb") as file:
        source = file.read()
    if name.startswith("@"):
        card = built_in(name)
    else:
        with open(name, "rb") as file:
            card = file.read()
    if text:
        with open(text[0], encoding="utf-8") as file:
            text = file.readlines()
    status, line, text = judged(card, source, text or None)
    sys.stdout.write(line or "".join(text))
    return status


if __name__ == "__main__":
    sys.exit(front.deeply(main))
