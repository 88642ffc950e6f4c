#!/usr/bin/env python3
"""What the cases of crates/cases have to answer, worked out anew from the rules in docs/ by tests/plan.py, front.py and judge.py,
which are another program in another language than the compiler. Where the rules of a plan leave a choice, it is judged and taken over
from the built program, if there is one.

    cases.py <crates/cases/stdin >crates/cases/stdout
"""
import os
import subprocess
import sys
import tempfile

import judge
import plan

DATA = os.path.join(os.path.dirname(os.path.abspath(__file__)), "../crates/cases/data")
PROGRAM = os.path.join(os.path.dirname(os.path.abspath(__file__)), "../crates/zac_cli/out/zac_cli")
ROOM = 16777216
USAGE = (2, "usage: compile CARD QASM | report CARD QASM | replay CARD QASM ZAIR | make N K | drill N K\n")
LIMITS = {"card": 65536, "source": 4194304, "zair": 268435456}
COMMANDS = {"compile": 3, "report": 3, "replay": 4}


def unescaped(text):
    out, i = bytearray(), 0
    while i < len(text):
        if text[i] != "\\":
            out += text[i].encode()
            i += 1
        elif text[i + 1] == "x":
            out.append(int(text[i + 2 : i + 4], 16))
            i += 4
        else:
            out += {"n": b"\n", "r": b"\r", "t": b"\t", "s": b" ", "\\": b"\\"}[text[i + 1]]
            i += 2
    return bytes(out)


def calls_to_read(length, limit):
    """How many calls of the shelf read a file: one picks it, each further one fills a buffer, and the last tells the end."""
    calls, filled, room = 1, 0, 0
    while filled < limit + 1:
        if filled == room:
            room = min(max(room * 2, 4096), limit + 1)
        calls += 1
        if filled == length:
            break
        filled = min(room, length)
    return calls


KNOWN = {}


def written(card, source):
    """The lines that the built program writes; none where it isn't built or refuses."""
    if not os.access(PROGRAM, os.X_OK):
        return None
    with tempfile.TemporaryDirectory() as folder:
        names = [os.path.join(folder, name) for name in ("card.json", "source.qasm")]
        for name, data in zip(names, (card, source)):
            with open(name, "wb") as file:
                file.write(data)
        ended = subprocess.run([PROGRAM, "compile", *names], capture_output=True, stdin=subprocess.DEVNULL)
    return ended.stdout.decode().splitlines(keepends=True) or None


def compiled(card, source):
    """The status, the line, and the lines of the text."""
    if (card, source) not in KNOWN:
        KNOWN[card, source] = plan.judged(card, source, written(card, source))
    return KNOWN[card, source]


def is_number(word, least, most):
    return word.isascii() and word.isdigit() and word == str(int(word)) and least <= int(word) <= most


class Case:
    def __init__(self, words):
        self.words, self.files, self.room = words, {}, ROOM
        self.failing = {"shelf": [], "out": [], "err": []}
        self.kinds, self.fronts = [], None

    def change(self, name, old, new):
        before, _, behind = bytes(self.files[name]).partition(unescaped(old))
        self.files[name] = bytearray(before + unescaped(new) + behind)

    def ended(self, files):
        """The status, what err holds, what out holds, and whether the panel was shown the steps of a text, which it is then."""
        words = self.words.split()
        command = words[0] if words else ""
        if command in ("make", "drill") and len(words) == 3 and is_number(words[1], 2, 4096) and is_number(words[2], 0, 50000):
            source = plan.pairs_source(int(words[1]), int(words[2]))
            if command == "make":
                return self.written([source])
            _, _, line = judge.drill(compiled(plan.built_in("@standard"), source.encode()))
            return self.written([line])
        if len(words) != COMMANDS.get(command):
            return *USAGE, "", None
        given, calls = {}, 0
        for kind, name in zip(LIMITS, words[1:]):
            if kind == "card" and name in ("@tiny", "@standard"):
                given[kind] = plan.built_in(name)
                continue
            data = bytes(files.get(name, b""))
            needed = calls_to_read(len(data), LIMITS[kind]) if name in files else 1
            if name not in files or any(calls < call <= calls + needed for call in self.failing["shelf"]):
                return 3, f"read fault: {kind}\n", "", None
            calls += needed
            if len(data) > LIMITS[kind]:
                return 10, f"too long: {kind}\n", "", None
            given[kind] = data
        return self.judged(command, **given)

    def judged(self, command, card, source, zair=None):
        if command == "replay":
            status, line, text = judge.replay(card, source, zair)
            return (status, line, "", None) if status else self.written([text])
        status, line, text = compiled(card, source)
        if status:
            return status, line, "", None
        if command == "compile":
            return self.written(text)
        _, _, told = judge.report((status, line, text), self.kinds)
        return *self.written([told])[:3], text

    def written(self, text):
        out = ""
        for number, each in enumerate(text, 1):
            if number in self.failing["out"]:
                return 4, "write fault\n", out, None
            out += each
            if len(out) > self.room:
                return 4, "write fault\n", out[: self.room], None
        return 0, "", out, None

    def answer(self):
        yield f"case {self.words}"
        if self.fronts is None:
            yield from self.told(*self.ended(self.files))
            return
        last, whole = None, self.files[self.fronts]
        for front in range(len(whole) + 1):
            end = self.ended({**self.files, self.fronts: whole[:front]})
            if end != last:
                yield f"  from {front} bytes of {self.fronts} on"
                yield from self.told(*end)
            last = end

    def told(self, status, err, out, shown):
        if 1 in self.failing["err"]:
            err = ""
        yield f"  status {status}"
        for name, text in (("err", err), ("out", out)):
            lines = text.split("\n")
            if len(lines) > 21 or len(text) > 100000:
                yield f"  {name} has {len(lines) - 1} lines, {len(text)} bytes"
                continue
            yield from (f"  {name}: {line}" for line in lines[:-1])
            if lines[-1]:
                yield f"  {name} front: {lines[-1]}"
        for kind, count in zip(self.kinds, judge.sums(self.kinds, shown or [])):
            yield f"  shown {kind} {count}"


def real_file(path):
    with open(os.path.join(DATA, path), "rb") as file:
        return file.read()


def answers(table):
    case = None
    for line in table:
        head, _, rest = line.rstrip("\n").partition(" ")
        if head in ("#", "case"):
            if case:
                yield from case.answer()
            case = Case(rest) if head == "case" else None
            if head == "#":
                yield line.rstrip("\n")
        name, _, behind = rest.partition(" ")
        if head == "text":
            case.files.setdefault(name, bytearray()).extend(unescaped(behind))
        if head == "repeat":
            times, _, text = behind.partition(" ")
            case.files.setdefault(name, bytearray()).extend(unescaped(text) * int(times))
        if head == "file":
            case.files.setdefault(name, bytearray()).extend(real_file(behind))
        if head == "lines":
            path, *numbers = behind.split()
            lines = real_file(path).splitlines(keepends=True)
            case.files.setdefault(name, bytearray()).extend(b"".join(lines[int(number) - 1] for number in numbers))
        if head == "change":
            case.change(name, *behind.split(" ", 1))
        if head == "panel":
            case.kinds += rest.split()
        if head == "fronts":
            case.fronts = rest
        if head == "fail":
            case.failing[name].append(int(behind))
        if head == "room":
            case.room = int(rest)
    if case:
        yield from case.answer()


if __name__ == "__main__":
    for line in answers(sys.stdin):
        print(line)
