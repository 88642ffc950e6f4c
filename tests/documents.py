#!/usr/bin/env python3
"""Runs each example of the documents with the launcher, and compares what it writes with what stands there. Of docs/REFUSALS.md it
also compares the status, sees that each kind of README's tables has its entry, and that the hint for each example is that entry.
The examples of one section are run one after another in one folder.

    documents.py LAUNCHER    a line for each example that differs, and the counts
"""
import os
import re
import shlex
import shutil
import subprocess
import sys
import tempfile

TOP = os.path.realpath(os.path.join(os.path.dirname(os.path.abspath(__file__)), ".."))
PAGES = ["README.md", "docs/REFUSALS.md", "docs/OUTPUT.md"]
EXAMPLE = re.compile(r"^```(sh|qasm|json)\n(.*?)^```\n(?:\n```\n(.*?)^```\n)?", re.M | re.S)


class Example:
    def __init__(self, page, heading, status, form, text, answer):
        self.page, self.heading, self.status, self.answer = page, heading, status, answer or ""
        self.files, self.commands = {}, text
        if form == "qasm":
            self.files["example.qasm"] = text
            self.commands = "./zac compile @tiny example.qasm\n"
        if form == "json":
            self.files["example.json"] = text
            self.commands = "./zac compile example.json examples/one_cx.qasm\n"

    def words(self):
        """The words of the last command."""
        line = self.commands.strip().split("\n")[-1].split(" >")[0]
        return shlex.split(line)[1:]


def sections_of(page):
    """The examples of each section of a page."""
    with open(os.path.join(TOP, page), encoding="utf-8") as file:
        text = file.read()
    status = 0
    for section in re.split(r"^(?=##+ )", text, flags=re.M):
        heading = section.split("\n", 1)[0].lstrip("# ").replace("`", "")
        named = re.match(r"Status (\d+):", heading)
        status = int(named.group(1)) if named else status
        yield [Example(page, heading, status, *found.groups()) for found in EXAMPLE.finditer(section)]


def folder_with(launcher):
    """A folder in which examples run as at the top of the repository."""
    folder = tempfile.mkdtemp()
    os.symlink(launcher, os.path.join(folder, "zac"))
    for name in ("examples", "tests", "tools", "docs"):
        os.symlink(os.path.join(TOP, name), os.path.join(folder, name))
    return folder


def run(example, folder):
    """What the example writes, and its status."""
    for name, text in example.files.items():
        with open(os.path.join(folder, name), "w", encoding="utf-8") as file:
            file.write(text)
    plain = {name: value for name, value in os.environ.items() if name != "ZAC_HINTS"}
    streams = {"stdin": subprocess.DEVNULL, "stdout": subprocess.PIPE, "stderr": subprocess.STDOUT}
    done = subprocess.run(["bash", "-c", example.commands], cwd=folder, env=plain, check=False, **streams)
    return done.stdout.decode("utf-8", "replace"), done.returncode


def hint_differs(example, folder, sentences):
    """The hint for the example isn't the entry in which it stands."""
    said = os.path.join(folder, "said")
    with open(said, "w", encoding="utf-8") as file:
        file.write(example.answer)
    words = [sys.executable, os.path.join(TOP, "tools/hints"), str(example.status), said, *example.words()]
    hint = subprocess.run(words, cwd=folder, stdout=subprocess.PIPE, check=False).stdout.decode()
    return f": {example.heading})" not in hint or not all(sentence in hint for sentence in sentences)


def sentences_of_entries():
    with open(os.path.join(TOP, "docs/REFUSALS.md"), encoding="utf-8") as file:
        text = file.read()
    found = {}
    for section in re.split(r"^##+ ", text, flags=re.M)[1:]:
        parts = re.findall(r"^\*(?:What is wrong|What helps)\.\* (.*?)(?:\n\n|\Z)", section, re.M | re.S)
        found[section.split("\n", 1)[0].replace("`", "")] = [" ".join(part.split()) for part in parts]
    return found


def without_entry(entries):
    """The kinds and statuses of README's tables that docs/REFUSALS.md doesn't have."""
    with open(os.path.join(TOP, "README.md"), encoding="utf-8") as file:
        readme = file.read()
    kinds = re.findall(r"^\| `([A-Z]\w+)` \|", readme, re.M)
    kinds += [f"Status {status}" for status in re.findall(r"^\| ([1-9]\d*) \|", readme, re.M)]
    return [kind for kind in kinds if not any(re.match(rf"{kind}\b", heading) for heading in entries)]


def faults_of(example, folder, entries):
    """What differs between an example and what it does."""
    written, status = run(example, folder)
    if written != example.answer:
        yield f"it writes {written[:300]!r}"
    if example.page.endswith("REFUSALS.md"):
        if status != example.status:
            yield f"status {status} for {example.status}"
        if hint_differs(example, folder, entries[example.heading]):
            yield "its hint is another"


def main():
    launcher = os.path.abspath(sys.argv[1])
    entries, passed, failed = sentences_of_entries(), 0, 0
    for section in [section for page in PAGES for section in sections_of(page)]:
        folder = folder_with(launcher)
        for example in section:
            faults = list(faults_of(example, folder, entries))
            passed, failed = passed + (not faults), failed + bool(faults)
            if faults:
                print(f"FAILED: {example.page}, {example.heading}: {'; '.join(faults)}")
        shutil.rmtree(folder)
    for kind in without_entry(entries):
        failed += 1
        print(f"FAILED: docs/REFUSALS.md has no entry {kind}")
    print(f"{passed} examples of the documents as they stand there, {failed} not")
    return 1 if failed else 0


if __name__ == "__main__":
    sys.exit(main())
