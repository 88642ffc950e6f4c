"""The text of a program, for `hints`: what each line has to be, what a wrong one breaks, and which step of the text a number names.
It follows docs/OUTPUT.md, and proves nothing.
"""
import json
import math
import re

# The greatest number of each sort; what stands in the place of a sort may be a list of one shape, a tuple of several, or an
# object with just these keys.
MOST = {"id": 255, "number": 2**32 - 1, "position": 10**6, "time": 4 * 10**18}
STEPS = {
    "activate": {"atoms": [("number", "id", "id")], "columns": [("id", "position")], "rows": [("id", "position")]},
    "move": {"columns": [("id", "position")], "rows": [("id", "position")]},
    "deactivate": {"atoms": [("number", "number")], "columns": ["id"], "rows": ["id"]},
}
LINES = {
    "init": {"homes": ["number"]},
    "1qGate": {"gates": [{"op": "number", "q": "number", "u": ("angle", "angle", "angle")}]},
    "rearrangeJob": {"aod": "id", "steps": ["step"]},
    "rydberg": {"pairs": [("number", "number", "number")]},
    "readout": {"reads": [("number", "number", "number")]},
}
COUNTS = ["gates", "jobs", "kept", "moved", "pairs", "pulses", "qubits", "reads"]
HEADER_LINE = b'{"type":"zair","version":1}'
BLANK = re.compile(r"[ \t\r\n]*")


def values(text, at=0, path=()):
    """The path of each value of a JSON text, with its place and itself; and where the value at a place ends."""
    at = BLANK.match(text, at).end()
    found, begin, open_sign = [], at, text[at]
    if open_sign not in "{[":
        value, end = json.JSONDecoder().raw_decode(text, at)
        return [(path, begin, end, value)], end
    at = BLANK.match(text, at + 1).end()
    number = 0
    while text[at] not in "}]":
        key = number
        if open_sign == "{":
            key, at = json.decoder.scanstring(text, at + 1)
            at = BLANK.match(text, at).end() + 1
        inner, at = values(text, at, path + (key,))
        found += inner
        at = BLANK.match(text, at).end()
        at = BLANK.match(text, at + 1).end() if text[at] == "," else at
        number += 1
    return found + [(path, begin, at + 1, [] if open_sign == "[" else {})], at + 1


def is_whole(value, text):
    return isinstance(value, int) and not isinstance(value, bool) and not text.startswith("-") and value < 2**64


# ---- what is wrong with a line

class Wrong(Exception):
    """What a line breaks: the heading of the entry, the bytes of the line that it is about, and what more there is to say."""

    def __init__(self, situation, more="", begin=0, end=None):
        super().__init__(situation)
        self.situation, self.more, self.begin, self.end = situation, more, begin, end


def in_words(path):
    """A path as it is told: `gates[0].u[1]`."""
    told = ""
    for part in path:
        told += f"[{part}]" if isinstance(part, int) else f".{part}" * bool(told) or part
    return told


class Line:
    """A line of a text, read as a JSON object, with the place of each value in it."""

    def __init__(self, data):
        try:
            self.text = data.decode("utf-8")
            self.value = json.loads(self.text)
        except UnicodeDecodeError as fault:
            raise Wrong("no JSON", "A byte there is no UTF-8.", fault.start, fault.start + 1) from None
        except json.JSONDecodeError as fault:
            at = len(self.text[: fault.pos].encode())
            raise Wrong("no JSON", f"{fault.msg.split(' (')[0]}.", at, at + 1) from None
        if not isinstance(self.value, dict):
            raise Wrong("no JSON", "It is another JSON value than an object.")
        # Of a key that comes twice the last value counts.
        self.places = {path: (begin, end) for path, begin, end, _ in values(self.text)[0]}

    def bytes_of(self, path):
        return [len(self.text[:at].encode()) for at in self.places[path]]

    def wrong(self, situation, path, more):
        raise Wrong(situation, more, *self.bytes_of(path))

    def judge(self, value, shape, path=()):
        """Raises what is wrong with the value at a path, if it hasn't this shape."""
        name = in_words(path) or "The line"
        if shape == "step":
            self.judge_named(value, "step", STEPS, {}, path)
        elif shape == "angle":
            if not isinstance(value, str) or not re.fullmatch(r"[!#-\[\]-~]{1,16384}", value):
                self.wrong("an angle", path, f"{name} is no such text.")
        elif isinstance(shape, str):
            begin, end = self.places[path]
            if not is_whole(value, self.text[begin:end]):
                self.wrong("a value", path, f"{name} isn't a whole number, written in digits alone.")
            if value > MOST[shape]:
                self.wrong("a value", path, f"{name} is at most {MOST[shape]:,}.")
        elif isinstance(shape, dict):
            self.judge_object(value, shape, path)
        elif not isinstance(value, list):
            self.wrong("a value", path, f"{name} isn't a list.")
        elif isinstance(shape, tuple) and len(value) != len(shape):
            self.wrong("a value", path, f"{name} has {len(value)} items for {len(shape)}.")
        else:
            for k, item in enumerate(value):
                self.judge(item, shape[k] if isinstance(shape, tuple) else shape[0], path + (k,))

    def judge_object(self, value, shape, path):
        name = in_words(path) or "The line"
        if not isinstance(value, dict):
            self.wrong("a value", path, f"{name} isn't an object.")
        for key in shape:
            if key not in value:
                self.wrong("a missing key", path, f"{name} has no {key}.")
        for key in value:
            if key not in shape:
                self.wrong("a key too many", path + (key,), f"{in_words(path + (key,))} is no key of this form.")
        for key, inner in shape.items():
            if inner is not None:
                self.judge(value[key], inner, path + (key,))

    def judge_named(self, value, key, shapes, common, path=()):
        """The same of an object whose shape goes by the name under a key."""
        if not isinstance(value, dict) or key not in value:
            self.judge_object(value, {key: None}, path)
        named = value[key]
        if not isinstance(named, str) or named not in shapes:
            self.wrong("a value", path + (key,), f"There is no such {key}: there are {', '.join(shapes)}.")
        self.judge_object(value, {**shapes[named], **common, key: None}, path)

    def judge_instruction(self):
        self.judge_named(self.value, "type", LINES, {"begin": "time", "end": "time"})
        if self.value["begin"] > self.value["end"]:
            self.wrong("the times", ("end",), f"It begins at {self.value['begin']:,} ns and ends at {self.value['end']:,} ns.")

    def judge_end(self, lines):
        """That the line has the tally of the lines of instructions before it."""
        self.judge_object(self.value, {**{count: "number" for count in COUNTS}, "time": "time", "type": None}, ())
        for count, number in tally(json.loads(line) for line in lines).items():
            if self.value[count] != number:
                self.wrong("the counts", (count,), f"The lines above hold {count} {number:,}.")


def tally(instrs):
    """The counts of the last line, of the instructions."""
    counts, before, ends = dict.fromkeys(COUNTS, 0), None, [0]
    for instr in instrs:
        ends.append(instr["end"])
        counts["qubits"] += len(instr.get("homes", ()))
        counts["gates"] += len(instr.get("gates", ()))
        counts["reads"] += len(instr.get("reads", ()))
        counts["jobs"] += instr["type"] == "rearrangeJob"
        for q, _ in [atom for step in instr.get("steps", ()) if step["step"] == "deactivate" for atom in step["atoms"]]:
            counts["moved"] += 1
            before = before and before - {q}
        if instr["type"] == "rydberg":
            pairs = [{a, b} for _, a, b in instr["pairs"]]
            counts["pulses"], counts["pairs"] = counts["pulses"] + 1, counts["pairs"] + len(pairs)
            counts["kept"] += sum(bool(pair & (before or set())) for pair in pairs)
            before = set().union(*pairs)
    return {**counts, "time": max(ends)}


def judge(lines, number):
    """Raises what is wrong with the line of this number, counted from 1; the lines before it are right. Nothing is raised where
    nothing is found."""
    if not lines:
        raise Wrong("nothing")
    if number > len(lines):
        raise Wrong("cut off")
    data = lines[number - 1]
    if number == 1:
        raise Wrong("cut off" if HEADER_LINE.startswith(data) else "the first line")
    if number > 2 and json.loads(lines[number - 2])["type"] == "end":
        raise Wrong("behind the end")
    try:
        line = Line(data)
    except Wrong as wrong:
        raise wrong if data.endswith(b"\n") else Wrong("cut off") from None
    kind = line.value.get("type")
    if (kind == "init") != (number == 2) and kind in [*LINES, "zair", "end"] or kind == "zair":
        line.wrong("a line out of place", ("type",), "")
    if kind == "end":
        line.judge_end(lines[1 : number - 1])
    else:
        line.judge_instruction()
    if not data.endswith(b"\n"):
        raise Wrong("cut off")


# ---- the steps of a text

def move_time(accel, dx, dy):
    """The least whole t with accel^2 * t^4 >= (dx^2 + dy^2) * 10^22."""
    enough = -(-(dx**2 + dy**2) * 10**22 // accel**2)
    return math.isqrt(math.isqrt(enough - 1)) + 1 if enough else 0


def job_times(card, steps):
    """How long each step of a job takes."""
    last = {"rows": {}, "columns": {}}
    for step in steps:
        shifts = {"rows": [0], "columns": [0]}
        for axis in last:
            for beam in step[axis] if step["step"] != "deactivate" else ():
                shifts[axis].append(min(abs(last[axis].get(beam[0], beam[1]) - beam[1]), 10**6))
        for axis in last:
            last[axis].update(step[axis] if step["step"] != "deactivate" else ())
        yield move_time(card["accel"], max(shifts["columns"]), max(shifts["rows"])) if step["step"] == "move" else card[step["step"]]


def times_of(card, instr):
    """How long each step of an instruction takes, and the path of each in its line."""
    kind = instr["type"]
    if kind == "rearrangeJob":
        return [(time, ("steps", k)) for k, time in enumerate(job_times(card, instr["steps"]))]
    if kind == "1qGate":
        return [(card["one"], ("gates", k)) for k in range(len(instr["gates"]))]
    return {"init": [], "rydberg": [(card["pulse"], ("pairs",))], "readout": [(card["readout"], ("reads",))]}[kind]


def step_of(card, instrs, number):
    """The step of this number in the order by begins: its begin, its instruction's number, its place there, and its path."""
    timed = []
    for k, instr in enumerate(instrs):
        begin = instr["begin"]
        for at, (time, path) in enumerate(times_of(card, instr)):
            timed.append((begin, k, at, path))
            begin += time
    return sorted(timed)[number]
