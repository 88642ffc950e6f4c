#!/usr/bin/env python3
"""What is answered of the texts of cards, worked out anew from the rules in docs/ and from the order of a card's fields:
another program in another language than the reader of the compiler.

    cards.py --cases >crates/card_cases/stdin                       the texts, one a line
    cards.py <crates/card_cases/stdin >crates/card_cases/stdout     the answers
"""
import glob
import json
import math
import os
import re
import sys

TOP = os.path.join(os.path.dirname(os.path.abspath(__file__)), "..")
TIMES = ["activate", "deactivate", "one", "pulse", "readout"]
FIGURES = [("version", 1, 1), ("gap", 1, 100000), ("park", 1, 100000), ("reach", 0, 100000), ("radius", 1, 100000)]
FIGURES += [("accel", 100, 1000000)] + [(name, 1, 1000000000) for name in TIMES]
FIGURES += [("aods", 1, 8), ("rows", 1, 64), ("columns", 1, 64)]
GRID = [("columns", 1, 65536), ("rows", 1, 65536)]
CORNER = [("x", 0, 1000000), ("y", 0, 1000000), ("dx", 1, 1000000), ("dy", 1, 1000000)]
ZONES = {"storage": CORNER + GRID, "entangling": CORNER + [("pair", 1, 1000000)] + GRID}
ABSENT = object()


class Number:
    """A number of a text that is no whole number from 0 below 2^64."""


class Refused(Exception):
    pass


def whole(text):
    if text.startswith("-") or int(text) >= 2**64:
        return fraction(text)
    return int(text)


def fraction(text):
    if math.isinf(float(text)):
        raise ValueError
    return Number()


def no_constant(text):
    raise ValueError


class Pairs(list):
    """The keys and values of an object, also of keys that come again."""


def is_too_deep(text):
    """Some array or object stands in more than 126 others."""
    if text.count("[") + text.count("{") < 128:
        return False
    depths, depth = [], 0
    for sign in re.sub(r'"(?:[^"\\]|\\.)*"', "", text):
        depth += (sign in "[{") - (sign in "]}")
        depths.append(depth)
    return max(depths) > 127


def plain(value):
    """The value without the Pairs in it: a key that comes again counts by its last value."""
    if isinstance(value, str):
        value.encode()
    if isinstance(value, Pairs):
        return {plain(key): plain(item) for key, item in value}
    return [plain(item) for item in value] if isinstance(value, list) else value


def value_of(data):
    """The value that bytes are as JSON; a ValueError where they are none."""
    text = data.decode()
    if text.startswith("\ufeff") or is_too_deep(text):
        raise ValueError
    return plain(json.loads(text, parse_int=whole, parse_float=fraction, parse_constant=no_constant, object_pairs_hook=Pairs))


def parsed(data):
    """The object that the bytes are."""
    try:
        value = value_of(data)
    except (ValueError, OverflowError):
        raise Refused("NotJson") from None
    if not isinstance(value, dict):
        raise Refused("NotJson")
    return value


def objects(value):
    return [item for item in value if isinstance(item, dict)] if isinstance(value, list) else []


def entries(card):
    """The name of each field, its least and greatest number, and what stands there."""
    for name, least, most in FIGURES:
        yield name, least, most, card.get(name, ABSENT)
    for kind, fields in ZONES.items():
        yield kind, None, None, card.get(kind, ABSENT)
        for zone in objects(card.get(kind)):
            for name, least, most in fields:
                yield f"{kind}.{name}", least, most, zone.get(name, ABSENT)


def is_whole(value):
    return isinstance(value, int) and not isinstance(value, bool)


def judge_form(card):
    for name, _, _, value in entries(card):
        if value is ABSENT:
            raise Refused(f"Missing {name}")
    if set(card) - {name for name, _, _ in FIGURES} - set(ZONES):
        raise Refused("Unknown")
    for kind, fields in ZONES.items():
        for zone in objects(card[kind]):
            if set(zone) - {name for name, _, _ in fields}:
                raise Refused("Unknown")
    for name, least, _, value in entries(card):
        listed = isinstance(value, list) and len(objects(value)) == len(value)
        if not (listed if least is None else is_whole(value)):
            raise Refused(f"NotWhole {name}")
    for name, least, most, value in entries(card):
        if least is not None and not least <= value <= most:
            raise Refused(f"Range {name}")


def box(kind, zone):
    """The least and the greatest coordinates of a zone's traps."""
    width = (zone["columns"] - 1) * zone["dx"] + (zone["pair"] if kind == "entangling" else 0)
    return zone["x"], zone["x"] + width, zone["y"], zone["y"] + (zone["rows"] - 1) * zone["dy"]


def broken(card):
    """The rules that a card breaks."""
    store, sites = card["storage"], card["entangling"]
    traps = sum(zone["columns"] * zone["rows"] for zone in store)
    places = sum(zone["columns"] * zone["rows"] for zone in sites)
    if not (1 <= len(store) <= 32 and 1 <= len(sites) <= 32 and traps <= 65536 and places <= 1024):
        yield 1
    park, reach, radius = card["park"], card["reach"], card["radius"]
    if park * park <= 2 * reach * reach:
        yield 2
    spans = [zone[name] for zone in store + sites for name in ("dx", "dy")]
    spans += [span for zone in sites for span in (zone["pair"], zone["dx"] - zone["pair"])]
    if any(span < park + card["gap"] or span <= park + reach for span in spans):
        yield 3
    if any(zone["pair"] > radius or radius >= zone["dx"] - zone["pair"] or radius >= zone["dy"] for zone in sites):
        yield 4
    boxes = [box("storage", zone) for zone in store] + [box("entangling", zone) for zone in sites]
    apart = park + reach + radius + 1
    for i, (left, right, bottom, top) in enumerate(boxes):
        for other_left, other_right, other_bottom, other_top in boxes[:i]:
            beside = other_left - right >= apart or left - other_right >= apart
            if not (beside or other_bottom - top >= apart or bottom - other_top >= apart):
                yield 5
    if any(max(right, top) + park > 1000000 for _, right, _, top in boxes):
        yield 6


def answer(data):
    try:
        card = parsed(data)
        judge_form(card)
    except Refused as fault:
        return str(fault)
    rules = sorted(set(broken(card)))
    if rules:
        return f"Invalid {rules[0]}"
    traps, sites = (sum(zone["columns"] * zone["rows"] for zone in card[kind]) for kind in ZONES)
    return f"{traps} {sites} {compact(card)}"


def compact(value):
    return json.dumps(value, sort_keys=True, separators=(",", ":"))


# ---- the texts

def tiny():
    with open(os.path.join(TOP, "examples/cards/tiny.json"), encoding="utf-8") as file:
        return json.load(file)


RAW = "raw:"


def text_of(card):
    """The text of a card; a string in it that begins with RAW stands for the text behind that."""
    out, quoted = [], compact(card).split(f'"{RAW}')
    out.append(quoted[0])
    for part in quoted[1:]:
        raw, _, rest = part.partition('"')
        out += [raw, rest]
    return "".join(out)


def changed(**figures):
    return text_of({**tiny(), **figures})


def zoned(kind, **fields):
    card = tiny()
    card[kind][0].update(fields)
    return text_of(card)


def many(kind, count, **fields):
    """The tiny card with so many zones of the kind, far enough apart."""
    card = tiny()
    card[kind] = [{**card[kind][0], **fields, "y": 1000 + 1000 * i} for i in range(count)]
    return text_of(card)


def without(name, kind=None):
    card = tiny()
    del (card[kind][0] if kind else card)[name]
    return text_of(card)


def field_cases(name, least, most, kind=None):
    """A field that is absent, that is no whole number, and numbers at the ends of its range."""
    yield without(name, kind)
    for value in ["raw:-0", "1", least - 1 if least > 0 else "raw:-1", least, most, most + 1]:
        yield zoned(kind, **{name: value}) if kind else changed(**{name: value})


def doubled_cases():
    text = text_of(tiny())
    for name, value in tiny().items():
        for first, last in ((True, value), (value, True)):
            rest = text.replace(f'"{name}":{compact(value)}', "", 1).replace(",,", ",").replace("{,", "{").replace(",}", "}")
            yield f'{{"{name}":{compact(first)},' + rest[1:-1] + f',"{name}":{compact(last)}}}'


def list_cases():
    for kind in ZONES:
        zone = tiny()[kind][0]
        short = {name: value for name, value in zone.items() if name != "y"}
        shorter = {name: value for name, value in zone.items() if name != "x"}
        for value in (1, {}, "zones", None, [], [1], [zone, 1], [1, short], [[zone]], [{}], [short, shorter], [shorter, short]):
            yield changed(**{kind: value})
        yield changed(**{kind: [zone, {**zone, "more": 1}]})
        yield changed(**{kind: [{**zone, "x": True}, 1]})
        yield changed(**{kind: [zone, {**zone, "y": True, "rows": 0}, {**zone, "x": True}]})
        yield changed(**{kind: [{**zone, "y": 1000001}, {**zone, "x": 1000001}]})


def order_cases():
    """Two faults at once."""
    card = tiny()
    del card["gap"]
    yield text_of({**card, "more": 1})
    yield text_of({**card, "park": 0, "version": "1"})
    yield changed(more=1, version="1")
    yield changed(more=1, gap=0)
    yield changed(gap="1", version=2)
    yield changed(gap=0, version=2)
    yield changed(columns="1", rows=True)
    yield changed(version=2, park=7)
    yield changed(storage=True, entangling=True)
    yield changed(storage=1, columns=0)
    yield zoned("storage", x=1000001, pair=1)
    yield zoned("storage", pair=0)
    yield zoned("entangling", columns="1", x=1000001)
    yield changed(park=7, radius=1, storage=[])
    yield changed(park=7, radius=1)
    yield zoned("entangling", pair=61, y=0, x=1000000)


def text_cases():
    text = text_of(tiny())
    yield ""
    yield " "
    yield from ("[]", "null", "1", '"card"', "{", "{}", "{} ", "[{}]", "{}{}", "{'gap':1}", "{gap:1}", "NaN", "{\"gap\":NaN}")
    yield from (text + " ", "%20%09%0D%0A" + text + "%0A", text + "x", text[:-1], text[:-1] + ",}", text + ",")
    yield "%EF%BB%BF" + text
    yield "%00" + text
    yield text.replace("gap", "g%FFap")
    yield text.replace("gap", "g%C3%A4p")
    yield text.replace("gap", "\\u0067ap")
    yield text.replace("gap", "\\ud800")
    yield text.replace("gap", "\\ud83d\\ude00")
    yield text.replace("{", "{%0A ").replace(":", " :%09").replace(",", "%0D%0A,")
    yield text_of(dict(reversed(list(tiny().items()))))
    yield json.dumps(dict(reversed(list(tiny().items()))), indent=1).replace("\n", "%0A")
    for depth in (126, 127, 128, 200):
        yield changed(more=RAW + "[" * (depth - 1) + "]" * (depth - 1))
    for number in ("1.0", "1e0", "1E+0", "10.5", "-1", "-0.0", "01", "+1", ".5", "1.", "0x1", "1e400", "-1e400", "1e308", "0e999"):
        yield changed(gap=RAW + number)
    for number in (2**64 - 1, 2**64, 10**30, 10**307):
        yield changed(gap=number)
    yield changed(gap=RAW + "9" * 400)
    yield changed(more=RAW + "1e999")
    yield from (changed(gap=value) for value in (True, False, None, [10], {"gap": 10}, ""))


def rule_cases():
    yield changed(gap=5, entangling=[{**tiny()["entangling"][0], "pair": 15}])
    yield changed(gap=5, entangling=[{**tiny()["entangling"][0], "pair": 16}])
    yield from (many("storage", 32), many("storage", 33), many("entangling", 32), many("entangling", 33))
    yield zoned("storage", columns=65536, dx=31, x=0)
    yield zoned("storage", columns=32768, rows=2)
    yield zoned("storage", columns=30000, rows=2, dx=30)
    yield zoned("storage", columns=32769, rows=2)
    yield from (many("entangling", 1, columns=32, rows=32), many("entangling", 1, columns=41, rows=25))
    yield from (changed(park=7), changed(park=8), changed(park=8, reach=6), changed(reach=0))
    yield from (zoned("storage", dx=20), zoned("storage", dx=19), zoned("storage", dy=19), zoned("entangling", dx=81), zoned("entangling", dy=19))
    yield from (zoned("entangling", pair=60, dx=121), zoned("entangling", pair=61, dx=130), zoned("entangling", pair=60, dx=120))
    yield from (zoned("entangling", dy=61), zoned("entangling", dy=60), zoned("entangling", dx=80))
    yield from (zoned("entangling", y=76), zoned("entangling", y=75), zoned("entangling", y=0, x=166), zoned("entangling", y=0, x=165))
    yield from (zoned("entangling", x=999850), zoned("entangling", x=999851), zoned("entangling", y=999990), zoned("entangling", y=999991))


def all_cases():
    yield "# The cards of examples/cards."
    for path in sorted(glob.glob(os.path.join(TOP, "examples/cards/*.json"))):
        with open(path, encoding="utf-8") as file:
            yield file.read().strip()
    yield "# Each field: absent, -0, a string, and numbers about the ends of its range."
    for name, least, most in FIGURES:
        yield from field_cases(name, least, most)
    for kind, fields in ZONES.items():
        yield without(kind)
        for name, least, most in fields:
            yield from field_cases(name, least, most, kind)
    yield "# Each key twice."
    yield from doubled_cases()
    yield "# Lists of zones."
    yield from list_cases()
    yield "# Two faults at once."
    yield from order_cases()
    yield "# Texts and numbers."
    yield from text_cases()
    yield "# The rules."
    yield from rule_cases()


def unescaped(line):
    out, parts = bytearray(), line.split("%")
    out += parts[0].encode()
    for part in parts[1:]:
        out.append(int(part[:2], 16))
        out += part[2:].encode()
    return bytes(out)


def main():
    if sys.argv[1:] == ["--cases"]:
        for line in all_cases():
            print(line)
        return
    for line in sys.stdin.read().splitlines():
        print(line if line.startswith("#") else answer(unescaped(line)))


if __name__ == "__main__":
    main()
