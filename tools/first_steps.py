#!/usr/bin/env python3
"""Tries what a newcomer does: each command of README.md and docs/EXAMPLES.md, and wrong commands in a terminal.

    python3 tools/first_steps.py [PROGRAM]

Run at the top of the repository, after the program is built (crates/widl_cli/out/widl_cli, if none is named). Each page's
commands are run in a scratch folder beside the examples and the files that `cat` shows, and what is written must be what
stands there. The lines that README shows of the library must stand in `widl_top`, in their order. Each block of tools/first_steps.txt is run with a pseudo-terminal for standard error, through `widl` under
another name, and the line there must be the block's. The rules of docs/RULES.md and docs/SCRIPTS.md must each have a text.
"""
import os
import pty
import re
import shlex
import shutil
import subprocess
import sys
import tempfile

import explain_refusal

TOP = os.path.dirname(os.path.dirname(os.path.abspath(__file__)))
PROGRAM = os.path.join(TOP, "crates", "widl_cli", "out", "widl_cli")
SECONDS = 120
PAGES = ["README.md", "docs/EXAMPLES.md"]
LIBRARY = ["crates/widl_top/src/answer.rt", "crates/widl_top/src/running.rt"]
SCRIPT_RULES = [f"S{number}" for number in range(1, 15)]


def read(path):
    with open(os.path.join(TOP, path), encoding="utf-8") as file:
        return file.read()


def write(folder, name, text):
    with open(os.path.join(folder, name), "w", encoding="utf-8") as file:
        file.write(text)


def commands(text):
    """The commands of a page, each with its lines of output: `    $ COMMAND` and the indented lines after it."""
    found, lines = [], None
    for line in text.splitlines():
        if line.startswith("    $ "):
            lines = []
            found.append((shlex.split(line[6:]), lines))
        elif lines is not None and line.startswith("    "):
            lines.append(line[4:])
        else:
            lines = None
    return found


def output(program, words, folder):
    """What the program writes to standard output."""
    try:
        ran = subprocess.run([program, *words], cwd=folder, stdout=subprocess.PIPE, timeout=SECONDS)
    except subprocess.TimeoutExpired:
        return f"no end after {SECONDS} seconds"
    return ran.stdout.decode(errors="replace").rstrip("\n")


def try_page(page, program, faults):
    """Runs each `./widl` of a page, and makes or compares each file that it shows. The number of these."""
    count = 0
    with tempfile.TemporaryDirectory() as folder:
        shutil.copytree(os.path.join(TOP, "examples"), os.path.join(folder, "examples"))
        for words, lines in commands(read(page)):
            shown = "\n".join(lines)
            if words[0] == "cat":
                if not os.path.exists(os.path.join(folder, words[1])):
                    write(folder, words[1], shown + "\n")
                with open(os.path.join(folder, words[1]), encoding="utf-8") as file:
                    written = file.read().rstrip("\n")
            elif words[0] == "./widl":
                written = output(program, words[1:], folder)
            else:
                continue
            count += 1
            if written != shown:
                faults.append(f"{page}: '{' '.join(words)}' gives\n{written}\nand the page says\n{shown}")
    return count


class Try:
    """A block of tools/first_steps.txt: a title, files, the arguments, the line that is wanted."""

    def __init__(self, block):
        title, _, rest = block.partition("\n")
        before, _, after = rest.partition("\n$") if not rest.startswith("$") else ("", "", rest[1:])
        command, _, line = after.partition("\n")
        self.title, self.words, self.line = title.strip(), shlex.split(command), line.strip()
        self.files = [it.split("\n", 1) for it in re.split(r"(?m)^-- ", before)[1:]]


def tries():
    text = "\n".join(line for line in read("tools/first_steps.txt").split("\n") if not line.startswith("# "))
    return [Try(block) for block in re.split(r"(?m)^== ", text)[1:]]


def said_in_terminal(program, words, folder):
    """What a person sees on standard error."""
    master, slave = pty.openpty()
    try:
        link = os.path.join(folder, "other-name")
        os.symlink(os.path.join(TOP, "widl"), link)
        env = {**os.environ, "WIDL_PROGRAM": program}
        subprocess.run([link, *words], cwd=folder, env=env, stdout=subprocess.DEVNULL, stderr=slave, timeout=SECONDS)
        os.write(slave, b"\0")
        said = b""
        while not said.endswith(b"\0"):
            said += os.read(master, 65536)
    finally:
        os.close(slave)
        os.close(master)
    return said.decode(errors="replace").rstrip("\0").replace("\r\n", "\n").strip()


def run_tries(program, faults):
    """Runs each block. The number of blocks."""
    for one in tries():
        with tempfile.TemporaryDirectory() as folder:
            for name, text in one.files:
                write(folder, name.strip(), text.rstrip("\n") + "\n")
            said = said_in_terminal(program, one.words, folder)
        if said != one.line:
            faults.append(f"{one.title}: a terminal shows\n{said}\nand tools/first_steps.txt says\n{one.line}")
    return len(tries())


def compare_library(faults):
    """The indented lines of README's section on the library are lines of the sources, in the order of these."""
    section = read("README.md").partition("\n## As a library\n")[2].partition("\n## ")[0]
    shown = [line.strip() for line in section.splitlines() if line.startswith("    ")]
    sources = [line.strip() for path in LIBRARY for line in read(path).splitlines()]
    place = 0
    for line in shown or ["(no line)"]:
        if line not in sources[place:]:
            faults.append(f"README.md: the library has no such line here: {line}")
        else:
            place = sources.index(line, place) + 1


def look_for_texts(faults):
    """Each rule has a text that a terminal can show."""
    scripts, sets = explain_refusal.rows("SCRIPTS.md", (2,)), explain_refusal.rows("RULES.md", (7, 8))
    faults += [f"docs/SCRIPTS.md: {rule} has no text for a terminal" for rule in SCRIPT_RULES if rule not in scripts]
    faults += [f"docs/SCRIPTS.md: no row for {habit}" for habit, _ in explain_refusal.HABITS if habit not in scripts]
    faults += [f"docs/RULES.md: {rule} has no text for a terminal" for rule, cells in sets.items() if not cells[1].partition(": ")[0]]


def main():
    program = os.path.abspath(sys.argv[1]) if len(sys.argv) > 1 else PROGRAM
    if not os.access(program, os.X_OK):
        sys.exit(f"first steps: there is no program {program}; `rt run` in crates/widl_cli builds it")
    faults = []
    shown = sum(try_page(page, program, faults) for page in PAGES)
    wrong = run_tries(program, faults)
    look_for_texts(faults)
    compare_library(faults)
    for fault in faults:
        print(f"first steps: {fault}")
    if faults:
        sys.exit(1)
    print(f"first steps: {shown} commands and files of the documents, and {wrong} wrong tries, are as written")


if __name__ == "__main__":
    main()
