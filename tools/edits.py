#!/usr/bin/env python3
"""Checks the text of the edits that must be refused, and tries those that the gate doesn't try.

    python3 tools/edits.py            checks each edit of crates/*/must-fail and tools/edits/*
    python3 tools/edits.py CRATE..    tries the edits of tools/edits/CRATE

An edit lays lines over a crate's files, and the proof of the crate must then fail. The gate tries the edits that lie in a
crate's must-fail/. Those of tools/edits/CRATE cost more than they tell at each run: whoever changes the crate tries them,
by this script and after `rt check` in the crate, over whose kept work each try begins.

Without a crate each edit's text is checked: its lines are 'file:', 'old:' and 'new:', the file is there, what is old stands
in it just once (after the pairs before it), and what is new differs. With crates their edits are laid into a copy of the
repository, in place of must-fail/, and `rt must-fail` tries them there. What is wrong is said on a line each, with status 1.
"""
import os
import shutil
import subprocess
import sys
import tempfile

TOP = os.path.dirname(os.path.dirname(os.path.abspath(__file__)))
PREFIXES = ("file: ", "old: ", "new: ")
# A library that is built, without which `rt must-fail` would prove the crates below anew.
BUILT = os.path.join("out", "rlib")


def kept_edits(crate):
    return os.path.join(TOP, "tools", "edits", crate)


def tried_edits(crate):
    return os.path.join(TOP, "crates", crate, "must-fail")


def names_in(folder):
    return sorted(os.listdir(folder)) if os.path.isdir(folder) else []


def text_of(path):
    with open(path, encoding="utf-8") as file:
        return file.read()


def pairs_of(path):
    """The pairs of an edit, each as its file, its old text and its new one, or None where a line has another form."""
    pairs, file, old = [], None, None
    for line in text_of(path).splitlines():
        prefix = next((it for it in PREFIXES if line.startswith(it)), None)
        said = line[len(prefix):] if prefix else line
        if prefix == "file: ":
            file = said
        elif prefix == "old: " and file is not None and old is None:
            old = said
        elif prefix == "new: " and old is not None:
            pairs.append((file, old, said))
            old = None
        elif said.strip():
            return None
    return pairs if pairs and old is None else None


def fault_of(crate, path):
    """What is wrong with an edit's text, or None."""
    pairs = pairs_of(path)
    if pairs is None:
        return "isn't made of lines 'file:', 'old:' and 'new:'"
    texts = {}
    for file, old, new in pairs:
        place = os.path.join(TOP, "crates", crate, file)
        if not os.path.isfile(place):
            return f"there is no {file}"
        text = texts.get(file) or text_of(place)
        if text.count(old) != 1:
            return f"in {file} this stands {text.count(old)} times: {old.strip()}"
        texts[file] = text.replace(old, new)
    if all(texts[file] == text_of(os.path.join(TOP, "crates", crate, file)) for file in texts):
        return "changes nothing"
    return None


def check():
    """Checks the text of all edits, and returns the status."""
    faults = []
    crates = sorted({*names_in(os.path.join(TOP, "crates")), *names_in(os.path.join(TOP, "tools", "edits"))})
    counts = {tried_edits: 0, kept_edits: 0}
    for crate in crates:
        for folder in counts:
            for name in names_in(folder(crate)):
                path = os.path.join(folder(crate), name)
                fault = fault_of(crate, path) if name.endswith(".edit") else "isn't named .edit"
                counts[folder] += 1
                if fault:
                    faults.append(f"{os.path.relpath(path, TOP)}: {fault}")
        both = {*names_in(tried_edits(crate))} & {*names_in(kept_edits(crate))}
        faults += [f"tools/edits/{crate}/{name}: the gate tries an edit of this name" for name in sorted(both)]
    for fault in faults:
        print(fault)
    print(f"edits: the gate tries {counts[tried_edits]}, {counts[kept_edits]} more are tried where their crate changes; {len(faults)} can't be laid in")
    return 1 if faults else 0


def lay(room, crates):
    """A copy of the repository whose crates have the edits of tools/edits in place of their own."""
    for part in ("crates.txt", "HANDLES"):
        shutil.copy(os.path.join(TOP, part), room)
    for crate in names_in(os.path.join(TOP, "crates")):
        to = os.path.join(room, "crates", crate)
        shutil.copytree(os.path.join(TOP, "crates", crate), to, ignore=shutil.ignore_patterns("out", "must-fail"))
        if os.path.isdir(os.path.join(TOP, "crates", crate, BUILT)):
            shutil.copytree(os.path.join(TOP, "crates", crate, BUILT), os.path.join(to, BUILT), symlinks=True)
    for crate in crates:
        shutil.copytree(kept_edits(crate), os.path.join(room, "crates", crate, "must-fail"))


def try_edits(crates):
    """Tries the edits of tools/edits of some crates, and returns the status of `rt must-fail`."""
    lacking = [it for it in crates if not names_in(kept_edits(it))]
    if lacking:
        print(f"no edits lie in tools/edits for {' '.join(lacking)}")
        return 1
    with tempfile.TemporaryDirectory(prefix="widl-edits-") as room:
        lay(room, crates)
        return subprocess.run(["rt", "must-fail", *crates], cwd=room).returncode


if __name__ == "__main__":
    sys.exit(try_edits(sys.argv[1:]) if sys.argv[1:] else check())
