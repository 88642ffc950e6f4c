#!/usr/bin/env python3
"""What `report`, `replay` and `drill` answer, worked out anew from the rules in docs/, in another language and by another hand
than the compiler: a reader of the texts of programs, and a judge of what they do. The machine is the one of tests/steps.py, and
programs are planned as in tests/plan.py.

    judge.py report CARD FILE [ZAIR]    an answer for a card, which is `@tiny`, `@standard` or a file, and a source
    judge.py replay CARD FILE ZAIR      an answer for these and a text
    judge.py drill N K [ZAIR]           an answer for a made source

The answer is on standard output, and the status is the program's. With a ZAIR behind `report` and `drill`, what the rules leave
open is taken from that text of the same program; where what it takes isn't greatest or least, the status is 99.
"""
import functools
import json
import sys

import cards
import front
import plan
import steps

MOST_TIME = 4 * 10**18
KINDS = ("gates", "moves", "pairs", "picks", "pulses", "reads")
TOTALS = ("qubits", "pulses", "pairs", "gates", "reads", "jobs", "moved", "kept", "time")
DRILLED = ("qubits", "pairs", "gates", "pulses", "kept", "jobs", "moved", "time")


# ---- the reader


class Line(Exception):
    """The number of the first line of a text that isn't right in its place."""


def number(most):
    return lambda value: type(value) is int and value <= most


def is_angle(value):
    return type(value) is str and 1 <= len(value) <= 16384 and all("!" <= sign <= "~" and sign not in '"\\' for sign in value)


def listed(item):
    return lambda value: type(value) is list and all(map(item, value))


def row(*items):
    return lambda value: type(value) is list and len(value) == len(items) and all(item(part) for item, part in zip(items, value))


def entries(**fields):
    """An object with these keys and no other."""
    return lambda value: value.keys() == fields.keys() and all(is_right(value[name]) for name, is_right in fields.items())


def any_of(key, forms):
    """An object that has one of the forms: the one that is named behind the key."""
    forms = {name: entries(**{key: lambda _: True}, **fields) for name, fields in forms.items()}

    def is_right(value):
        name = value.get(key) if type(value) is dict else None
        return type(name) is str and name in forms and forms[name](value)

    return is_right


ID, AT, PLAIN, TIME = number(255), number(1000000), number(2**32 - 1), number(MOST_TIME)
BEAMS = listed(row(ID, AT))
SPAN = {"begin": TIME, "end": TIME}
is_step = any_of(
    "step",
    {
        "activate": {"atoms": listed(row(PLAIN, ID, ID)), "columns": BEAMS, "rows": BEAMS},
        "move": {"columns": BEAMS, "rows": BEAMS},
        "deactivate": {"atoms": listed(row(PLAIN, PLAIN)), "columns": listed(ID), "rows": listed(ID)},
    },
)
is_gate = entries(op=PLAIN, q=PLAIN, u=row(is_angle, is_angle, is_angle))
is_line = any_of(
    "type",
    {
        "zair": {"version": lambda value: type(value) is int and value == 1},
        "init": {**SPAN, "homes": listed(PLAIN)},
        "1qGate": {**SPAN, "gates": listed(lambda value: type(value) is dict and is_gate(value))},
        "rydberg": {**SPAN, "pairs": listed(row(PLAIN, PLAIN, PLAIN))},
        "rearrangeJob": {**SPAN, "aod": ID, "steps": listed(is_step)},
        "readout": {**SPAN, "reads": listed(row(PLAIN, PLAIN, PLAIN))},
        "end": {name: number(2**64 - 1) for name in TOTALS},
    },
)


@functools.lru_cache(4096)
def read_line(data):
    """The value of a line and its type; the type is empty where it is no line of a text."""
    try:
        value = cards.value_of(data)
    except ValueError:
        return None, ""
    if not is_line(value):
        return None, ""
    is_late = "begin" in value and value["begin"] > value["end"]
    return (None, "") if is_late else (value, value["type"])


def program(data):
    """The instructions of a text."""
    *lines, rest = data.split(b"\n")
    instructions, is_ended = [], False
    for place, line in enumerate(lines, 1):
        value, kind = read_line(line)
        if is_ended or not kind or (kind == "zair") != (place == 1) or (kind == "init") != (place == 2):
            raise Line(place)
        if kind == "end":
            if value != plan.tally(instructions):
                raise Line(place)
            is_ended = True
        elif kind != "zair":
            instructions.append(value)
    if rest or not is_ended:
        raise Line(len(lines) + 1)
    return instructions


# ---- the steps of instructions


def steps_of(instruction):
    """The steps: each gate is one, and so are all pairs and all reads."""
    if instruction["type"] == "1qGate":
        return [{"step": "one", "gate": gate} for gate in instruction["gates"]]
    if instruction["type"] == "rydberg":
        return [{"step": "pulse", "pairs": instruction["pairs"]}]
    if instruction["type"] == "readout":
        return [{"step": "readout", "reads": instruction["reads"]}]
    return instruction.get("steps", [])


def durations(card, instruction):
    """How long each step takes. A move takes the move time of the greatest changes of its columns and of its rows, each from
    where the beam was placed last in the earlier steps of the instruction; a beam that wasn't placed there changes by 0."""
    last = {}
    for step in steps_of(instruction):
        placed = [(axis, *beam) for axis in ("columns", "rows") for beam in step.get(axis, [])] if step["step"] in ("activate", "move") else []
        if step["step"] == "move":
            change = {"columns": 0, "rows": 0}
            for axis, beam, at in placed:
                change[axis] = max(change[axis], abs(at - last.get((axis, beam), at)))
            yield card.move_time(change["columns"], change["rows"])
        else:
            yield card.figures[step["step"]]
        for axis, beam, at in placed:
            last[axis, beam] = at


def named_order(instructions, spans):
    """The steps by their begins, then by their instructions, then by their places in them."""
    order = []
    for place, (instruction, lengths) in enumerate(zip(instructions, spans)):
        begin = instruction["begin"]
        for step, length in enumerate(lengths):
            order.append((begin, place, step))
            begin += length
    return sorted(order)


# ---- what a circuit asks for


class Checklist:
    """Which ops of a circuit were performed."""

    def __init__(self, ops):
        self.ops, self.performed = ops, set()
        self.fence_before, fence = [], -1
        for place, op in enumerate(ops):
            self.fence_before.append(fence)
            fence = place if op[0] == "fence" else fence

    def waits_for(self, op, other):
        """A gate waits for each earlier one on one of its qubits or before a fence between them; a read for every gate and
        each earlier read."""
        kind, *qubits = self.ops[op]
        other_kind, *others = self.ops[other]
        if kind == "read":
            return other_kind in ("one", "two") or (other_kind == "read" and other < op)
        if other >= op or other_kind not in ("one", "two"):
            return False
        on = [part[:1] if name == "one" else part for name, part in ((kind, qubits), (other_kind, others))]
        return other < self.fence_before[op] or not set(on[0]).isdisjoint(on[1])

    def perform(self, op, what):
        """Performs an op, or answers why not."""
        if op >= len(self.ops) or self.ops[op] != what:
            return f"Content op {op}"
        if op in self.performed:
            return f"Again op {op}"
        for other in range(len(self.ops)):
            if other not in self.performed and self.waits_for(op, other):
                return f"Early op {op} waits for {other}"
        self.performed.add(op)
        return None

    def missing(self):
        return next((op for op, what in enumerate(self.ops) if what[0] != "fence" and op not in self.performed), None)


def asked(step):
    """The ops that a step performs, in their order."""
    if step["step"] == "one":
        gate = step["gate"]
        return [(gate["op"], ("one", gate["q"], gate["u"]))]
    kind, items = ("two", step["pairs"]) if step["step"] == "pulse" else ("read", step.get("reads", []))
    return [(op, (kind, *rest)) for op, *rest in items]


def moved(machine, aod, step):
    """What a step does to the machine, and what breaks each of its conditions."""
    kind = step["step"]
    if kind == "one":
        return machine.rest([step["gate"]["q"]])
    if kind == "pulse":
        return machine.pulse([(a, b) for _, a, b in step["pairs"]])
    if kind == "readout":
        return machine.rest([q for _, q, _ in step["reads"]])
    beams = [step["rows"], step["columns"]]
    if kind == "move":
        return machine.move(aod, beams)
    return getattr(machine, kind)(aod, beams, step["atoms"])


# ---- the commands


@functools.lru_cache(16)
def cards_of(data):
    """A card for times and plans, and one for the machine."""
    return plan.card_of(data), steps.Card(cards.parsed(data))


def replayed(cards_given, qubits, ops, instructions):
    """The fault of a text, or the number of its steps."""
    card, board = cards_given
    homes = instructions[0]["homes"]
    if len(homes) != qubits:
        return f"qubits {len(homes)} for {qubits}"
    first = {}
    for q, home in enumerate(homes):
        if home >= card.storage or first.setdefault(home, q) != q:
            return f"home of q {q}"
    spans = [list(durations(card, instruction)) for instruction in instructions]
    for place, instruction in enumerate(instructions):
        if instruction["end"] != instruction["begin"] + sum(spans[place]):
            return f"length of instruction {place}"
    machine, checklist, order = steps.Machine(board, homes), Checklist(ops), named_order(instructions, spans)
    for count, (_, place, which) in enumerate(order):
        step = steps_of(instructions[place])[which]
        answer = machine.done(*moved(machine, instructions[place].get("aod"), step))
        if answer != "ok":
            return f"step {count}: {answer}"
        for op, what in asked(step):
            fault = checklist.perform(op, what)
            if fault:
                return f"step {count}: {fault}"
    missing = checklist.missing()
    return len(order) if missing is None else f"missing op {missing}"


@functools.lru_cache(64)
def circuit(source):
    """The status and the line of a source, and its qubits and its ops."""
    try:
        scope = front.program(source)
        return 0, "", scope.qubits, front.native(scope)
    except front.Refused as fault:
        return 1, "source refused: %s at %d\n" % fault.args, 0, []
    except front.Limited as fault:
        return 11, "limit: %s %d\n" % fault.args, 0, []


def replay(card, source, text):
    """The status, the line on standard error, and what is written, for the bytes of a card, of a source and of a text."""
    refusal = cards.answer(card)
    if not refusal[0].isdigit():
        return 6, f"card refused: {refusal}\n", ""
    status, line, qubits, ops = circuit(source)
    if status:
        return status, line, ""
    try:
        instructions = program(text)
    except Line as fault:
        return 8, "zair refused: line %d\n" % fault.args, ""
    answer = replayed(cards_of(card), qubits, ops, instructions)
    if isinstance(answer, str):
        return 9, f"not the circuit: {answer}\n", ""
    return 0, "", f"legal: steps {answer} time {max(instruction['end'] for instruction in instructions)}\n"


WEIGHTS = {
    "gates": lambda step: step["step"] == "one",
    "moves": lambda step: step["step"] == "move",
    "pairs": lambda step: len(step.get("pairs", [])),
    "picks": lambda step: len(step["atoms"]) if step["step"] == "activate" else 0,
    "pulses": lambda step: step["step"] == "pulse",
    "reads": lambda step: len(step.get("reads", [])),
}


def sums(kinds, lines):
    """What watches of these kinds add up that are shown all steps of a text."""
    shown = [step for line in lines for step in steps_of(json.loads(line))]
    return [sum(WEIGHTS[kind](step) for step in shown) for kind in kinds]


def report(compiled, kinds=KINDS):
    """The answer of `report`, where `compile` answers this, for a panel of watches of these kinds."""
    status, line, lines = compiled
    if status:
        return status, line, ""
    totals = json.loads(lines[-1])
    told = [f"{name} {totals[name]}\n" for name in TOTALS]
    return 0, "", "".join(told + [f"watch {kind} {count}\n" for kind, count in zip(kinds, sums(kinds, lines))])


def drill(compiled):
    """The answer of `drill`, where `compile` on the made source and the standard card answers this."""
    status, line, lines = compiled
    if status:
        return status, line, ""
    totals = json.loads(lines[-1])
    return 0, "", "drill " + " ".join(f"{name} {totals[name]}" for name in DRILLED) + "\n"


def bytes_of(name):
    if name in ("@tiny", "@standard"):
        return plan.built_in(name)
    with open(name, "rb") as file:
        return file.read()


def main():
    command, *words = sys.argv[1:]
    if command == "replay":
        status, line, text = replay(*map(bytes_of, words))
    else:
        if command == "drill":
            card, source = plan.built_in("@standard"), plan.pairs_source(int(words[0]), int(words[1])).encode()
        else:
            card, source = map(bytes_of, words[:2])
        taken = [line for word in words[2:] for line in bytes_of(word).decode().splitlines(keepends=True)]
        compiled = plan.judged(card, source, taken or None)
        status, line, text = drill(compiled) if command == "drill" else report(compiled)
    sys.stdout.write(line or text)
    return status


if __name__ == "__main__":
    sys.exit(front.deeply(main))
