#!/usr/bin/env python3
"""Draws programs with tools/draw and compares the data of each page with the text: every begin and end, and where each atom and
each beam is, worked out from the text line by line and from the places of traps in tests/plan.py. Where Chromium is installed, the
page of the last program is opened in it too, without a window, and played; that is told where it can't be.

    draw.py CARD ZAIR..    a line for each program whose page differs, and the counts
"""
import html
import json
import os
import re
import shutil
import subprocess
import sys
import tempfile

import plan

DRAW = os.path.join(os.path.dirname(os.path.abspath(__file__)), "../tools/draw")
BROWSER = shutil.which("chromium")
PLAYED = """<script>
  const errors = [];
  window.addEventListener("error", event => errors.push(event.message));
  by("speed").value = "4";
  by("play").click();
  tick(last - 5);  // a frame that began before the click
  setTimeout(() => {
    const played = time;
    ["on", "back", "fit", "used", "scale"].forEach(name => by(name).click());
    document.title = JSON.stringify([played, data.end, errors]);
  }, 1000);
</script></body>"""


def along(track, time):
    """Where a track is at a time: straight between its points."""
    for (begin, *here), (end, *there) in zip(track, track[1:]):
        if begin <= time < end:
            return [a + (b - a) * (time - begin) / (end - begin) for a, b in zip(here, there)]
    return track[-1][1:] if time >= track[-1][0] else track[0][1:]


class Text:
    """What a text says: begins and ends of its steps, and places at their ends."""

    def __init__(self, card, lines):
        self.card, self.homes = card, lines[1]["homes"]
        self.place = [list(card.points[trap]) for trap in self.homes]
        self.events = {"jobs": [], "gates": [], "pulses": [], "reads": []}
        self.places, self.beams, self.active, self.held = [], [], {}, {}
        for line in lines[2:]:
            if "begin" in line:
                self.read(line)

    def read(self, line):
        begin, figures = line["begin"], self.card.figures
        if line["type"] == "1qGate":
            for k, gate in enumerate(line["gates"]):
                start = begin + k * figures["one"]
                self.events["gates"].append([start, start + figures["one"], gate["op"], gate["q"], gate["u"]])
        if line["type"] == "rydberg":
            self.events["pulses"].append([begin, line["end"], line["pairs"]])
        if line["type"] == "readout":
            self.events["reads"].append([begin, line["end"], line["reads"]])
        if line["type"] == "rearrangeJob":
            steps = [self.step(line, number, step) for number, step in enumerate(line["steps"])]
            self.events["jobs"].append([line["aod"], begin, line["end"], steps])

    def step(self, line, number, step):
        """A step's begin and end; behind it each atom of the job is where its crossing is, or in its trap."""
        self.now = self.now if number else line["begin"]
        key = lambda axis, beam: (line["aod"], axis, beam)
        begin, kind = self.now, step["step"]
        if kind == "move":
            shifts = [max(abs(at - self.active[key(axis, beam)]) for beam, at in step[axis + "s"]) for axis in ("column", "row")]
            self.now += self.card.move_time(*shifts)
        else:
            self.now += self.card.figures[kind]
        for axis in ("row", "column"):
            for beam in step[axis + "s"]:
                if kind == "deactivate":
                    self.beams.append([*key(axis, beam), self.now, self.active.pop(key(axis, beam))])
                else:
                    self.active[key(axis, beam[0])] = beam[1]
        for atom in step.get("atoms", []):
            if kind == "activate":
                self.held[atom[0]] = (line["aod"], atom[1], atom[2])
            else:
                del self.held[atom[0]]
                self.place[atom[0]] = list(self.card.points[atom[1]])
        for q, (aod, row, column) in self.held.items():
            if aod == line["aod"]:
                self.place[q] = [self.active[aod, "column", column], self.active[aod, "row", row]]
                self.places.append([self.now, q, aod, list(self.place[q])])
        if kind == "deactivate":
            self.places += [[self.now, q, None, list(self.place[q])] for q, _ in step["atoms"]]
        return [kind, begin, self.now]


def faults(data, text, lines):
    """What differs between a page's data and a text."""
    for name, events in text.events.items():
        if data[name] != events:
            yield name
    if data["homes"] != text.homes or data["end"] != max(line["end"] for line in lines if "begin" in line):
        yield "homes or end"
    if [track[0] for track in data["atoms"]] != [[0, *text.card.points[trap]] for trap in text.homes]:
        yield "the places at the begin"
    for time, q, aod, place in text.places:
        holders = [held[2] for held in data["held"][q] if held[0] <= time < held[1]]
        if along(data["atoms"][q], time) != place or holders != ([] if aod is None else [aod]):
            yield f"atom {q} at {time}"
    tracks = [[beam["aod"], beam["axis"], beam["id"], beam["track"][-1][0], beam["track"][-1][1]] for beam in data["beams"]]
    if sorted(tracks) != sorted(text.beams):
        yield "the beams"


def crossings_differ(data):
    """In the middle of some flight an atom isn't at a crossing of two beams of the AOD that holds it."""
    for q, spans in enumerate(data["held"]):
        for begin, end, aod in spans:
            time = (begin + end) / 2
            active = [beam for beam in data["beams"] if beam["aod"] == aod and beam["track"][0][0] <= time < beam["track"][-1][0]]
            for axis, at in zip(("column", "row"), along(data["atoms"][q], time)):
                if at not in [along(beam["track"], time)[0] for beam in active if beam["axis"] == axis]:
                    return True
    return False


def shown(page):
    """What a page holds once it was played for a second in the browser, or nothing where the browser itself doesn't run."""
    with tempfile.TemporaryDirectory() as folder:
        path = os.path.join(folder, "page.html")
        with open(path, "w", encoding="utf-8") as file:
            file.write(page.replace("</body>", PLAYED))
        words = [BROWSER, "--headless", "--no-sandbox", "--disable-gpu", f"--user-data-dir={folder}/browser",
                 "--virtual-time-budget=4000", "--dump-dom", f"file://{path}"]
        try:
            ran = subprocess.run(words, stdout=subprocess.PIPE, stderr=subprocess.DEVNULL, timeout=120, check=False)
        except (OSError, subprocess.TimeoutExpired):
            return ""
        return "" if ran.returncode else ran.stdout.decode()


def stands_still(held):
    """What went wrong when a page was played, or nothing, by what it holds then."""
    title = re.search(r"<title>(\[.*?\])</title>", held, re.S)
    if not title:
        return "its code stops"
    time, end, errors = json.loads(html.unescape(title.group(1)))
    if errors:
        return f"the browser says {errors[0]}"
    return "" if end == 0 or time is not None and 0 < time <= end else f"playing stands at {time} of {end}"


def page_of(name, path):
    """The page of a program, or nothing where it can't be drawn."""
    drawn = subprocess.run([sys.executable, DRAW, name, path], stdout=subprocess.PIPE, check=False)
    return "" if drawn.returncode else drawn.stdout.decode()


def differs(name, path):
    """What is wrong with the page of a program, or nothing."""
    with open(path, encoding="utf-8") as file:
        lines = [json.loads(line) for line in file]
    page = page_of(name, path)
    if not page:
        return "there is none"
    if re.search(r'(?:src|href)\s*=|url\(|@import|https?:', page):
        return "it asks for another file"
    data = json.loads(re.search(r'<script type="application/json" id="data">(.*?)</script>', page, re.S).group(1))
    card = plan.card_of(plan.built_in(name) if name.startswith("@") else open(name, "rb").read())
    return next(faults(data, Text(card, lines), lines), "an atom beside its beams" if crossings_differ(data) else "")


def main():
    failed = 0
    for path in sys.argv[2:]:
        fault = differs(sys.argv[1], path)
        failed += bool(fault)
        if fault:
            print(f"FAILED: the page of {path}: {fault}")
    print(f"{len(sys.argv) - 2 - failed} pages as their texts, {failed} not")
    held = shown(page_of(sys.argv[1], sys.argv[-1])) if BROWSER else ""
    fault = held and stands_still(held)
    if fault:
        print(f"FAILED: the page of {sys.argv[-1]} when it is played: {fault}")
    elif not held:
        print("played in no browser: there is no Chromium here, or it doesn't run")
    return 1 if failed or fault else 0


if __name__ == "__main__":
    sys.exit(main())
