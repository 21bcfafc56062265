#!/usr/bin/env python3
"""Tells in words why the program ended: FILE:LINE:COLUMN: rule N at `WORD`: what is wrong (docs/RULES.md).

    python3 tools/explain_refusal.py PROGRAM STATUS ARGUMENT..

The program has just ended with this status. Of statuses 3 and 4 it is asked once more, and its line, `refused RULE FILE
OFFSET` or `script RULE LINE COLUMN`, is put into the words of docs/RULES.md or docs/SCRIPTS.md, with what stands at the
place. Columns count characters from 1. Of the other statuses the arguments and the disk tell what is wrong. Where
anything isn't as expected, nothing is written.
"""
import difflib
import os
import re
import subprocess
import sys

TOP = os.path.dirname(os.path.dirname(os.path.abspath(__file__)))
MOST_BYTES, MOST_FILES, MOST_UNITS = 1_048_576, 64, 2_000_000
FORMS = {
    "check": "widl check FILE..",
    "sets": "widl sets FILE..",
    "run": "widl run BUDGET SCRIPT FILE..",
    "--help": "widl --help",
    "--version": "widl --version",
}
# By the command, the place of the first file that is read, and of the first one of Web IDL.
FILES = {"check": (1, 1), "sets": (1, 1), "run": (2, 3)}
REFUSED = re.compile(r"refused (\w+) (\d+) (\d+)(?: other (\d+) (\d+))?\n?")
SCRIPT = re.compile(r"script (S\d+) (\d+) (\d+)\n?")
# The words of Web IDL and of scripts, as far as a line needs them.
TOKEN = re.compile(r'"[^"]*"|\.\.\.|-?[0-9A-Za-z_][-0-9A-Za-z_]*|\S')
WORD = re.compile(r'[-@]?[0-9A-Za-z_]+|"(?:\\.|[^"\\])*"?|\S')
COMMENT_OR_TEXT = re.compile(r'//[^\n]*|/\*.*?\*/|"[^"]*"', re.S)
# What no script can be run over yet, by the word that begins it.
UNSERVED = {"interface": "an interface", "callback": "a callback", "Promise": "a promise type",
            "attribute": "a namespace with an attribute", "const": "a namespace with a constant"}
# What people write first in a line that fits no form, each with the row of docs/SCRIPTS.md that answers it.
HABITS = [
    ("byte order mark", re.compile("^\ufeff")),
    ("`console.log`", re.compile(r"^\s*console\b")),
    ("`'`", re.compile(r"'")),
    ("`;`", re.compile(r";\s*$")),
    ("a comment behind code", re.compile(r"^(?=.*\S).*?(//|\s#)")),
    ("a decimal", re.compile(r"\d\.\d")),
    ("an operator", re.compile(r"[-+*/%&|!<>?~^]|==")),
    ("`var`, `const`", re.compile(r"^\s*(var|const)\b")),
    ("a bare call", re.compile(r"^\s*[A-Za-z_][\w.]*\s*\(")),
    ("a bare assignment", re.compile(r"^\s*[A-Za-z_][\w.]*\s*=")),
    ("braces", re.compile(r"[{}]")),
]


def rows(page, columns):
    """The rows of the tables of a page that have so many columns, by their first cell."""
    found = {}
    with open(os.path.join(TOP, "docs", page), encoding="utf-8") as file:
        for line in file:
            cells = [cell.strip() for cell in line.strip().strip("|").split(" | ")]
            if line.startswith("|") and len(cells) in columns:
                found[cells[0] if page == "SCRIPTS.md" else cells[0].strip("`")] = cells
    return found


def text_of(name):
    """The text of a file; bytes that are no text stand as one sign each."""
    with open(name, "rb") as file:
        return file.read()


def at(name, data, offset):
    """FILE:LINE:COLUMN of a byte."""
    before = data[:offset].decode(errors="replace")
    return f"{name}:{before.count(chr(10)) + 1}:{len(before) - (before.rfind(chr(10)) + 1) + 1}"


def word_at(data, offset, pattern):
    """What stands at a byte, cut short where it is long."""
    rest = data[offset : offset + 400].decode(errors="replace")
    found = pattern.match(rest)
    word = found[0] if found else ""
    return word if len(word) <= 40 else f"{word[:37]}..."


def stop_at(word):
    return f" at `{word}`" if word else ""


def rule_text(rule, data, offset):
    """What is wrong at a byte of Web IDL, in a few words; None of a rule that isn't known."""
    cells = rows("RULES.md", (7, 8)).get(rule)
    if cells is None:
        return None
    text, word = cells[1].partition(": ")[0], word_at(data, offset, TOKEN)
    if rule == "syntax" and offset == 0 and data.startswith(b"\xef\xbb\xbf"):
        return "the file begins with a byte order mark, which Web IDL hasn't"
    if rule == "syntax":
        return f"unexpected `{word}`" if word else "the file ends too soon"
    if rule == "8":
        return f"rule 8: `{word}` names nothing, or a mixin or namespace"
    if rule.startswith("X"):
        instead = f"; use {cells[7]}" if len(cells) > 7 and cells[7] else ""
        return f"rule {rule}{stop_at(word)}: unsupported: {text}{instead}"
    return f"rule {rule}{stop_at(word)}: {text}"


def first_unserved(files):
    """Where the first thing stands that no script can be run over yet, and what it is."""
    for name in files:
        data = text_of(name)
        blank = lambda found: re.sub(r"[^\n]", " ", found[0])
        text = COMMENT_OR_TEXT.sub(blank, data.decode(errors="replace"))
        found = re.search(rf"\b({'|'.join(UNSERVED)})\b", text)
        if found:
            return at(name, text.encode(), len(text[: found.start()].encode())), UNSERVED[found[1]]
    return None


def refusal(output, words):
    """The line for `refused ..`."""
    refused = REFUSED.fullmatch(output)
    if refused is None:
        return None
    files = words[FILES[words[0]][1] :]
    if refused[1] == "later":
        place = first_unserved(files)
        return f"{place[0]}: `run` doesn't serve {place[1]} yet (README.md)" if place else None
    name, offset = files[int(refused[2])], int(refused[3])
    data = text_of(name)
    told = rule_text(refused[1], data, offset)
    if told is None:
        return None
    see = ""
    if refused[4]:
        other = files[int(refused[4])]
        see = f", see {at(other, text_of(other), int(refused[5]))}"
    return f"{at(name, data, offset)}: {told}{see} (docs/RULES.md)"


def hint(line):
    """What to write in place of what people write first."""
    said = rows("SCRIPTS.md", (2,))
    for habit, pattern in HABITS:
        if pattern.search(line) and habit in said:
            return f"; {said[habit][1]}"
    return ""


def script_refusal(output, words):
    """The line for `script ..`."""
    refused = SCRIPT.fullmatch(output)
    if refused is None:
        return None
    rule, number, column = refused[1], int(refused[2]), int(refused[3])
    told = rows("SCRIPTS.md", (2,)).get(rule)
    if told is None:
        return None
    data = text_of(words[2])
    lines = data.split(b"\n")
    line = lines[number - 1] if number <= len(lines) else b""
    word = word_at(line, column - 1, WORD)
    text = told[1].replace("WORD", f"`{word}`" if word else "the end of the line")
    more = hint(line.decode(errors="replace")) if rule == "S2" else ""
    return f"{at(words[2], line, column - 1).replace(':1:', f':{number}:', 1)}: rule {rule}: {text}{more} (docs/SCRIPTS.md)"


def ask_again(program, words, read):
    """What the program writes, put into words, where each file is one that can be read twice."""
    if not all(map(os.path.isfile, words[FILES[words[0]][0] :])):
        return None
    ran = subprocess.run([program, *words], stdout=subprocess.PIPE, stderr=subprocess.DEVNULL)
    return read(ran.stdout.decode(errors="replace"), words)


def usage_of_run(words):
    """What is wrong with the arguments of `run`."""
    budget = words[1] if len(words) > 1 else ""
    if not re.fullmatch(r"[1-9][0-9]*", budget) or int(budget) > MOST_UNITS:
        missing = budget == "" or os.path.exists(budget)
        what = "BUDGET is missing: " if missing else f"BUDGET can't be `{budget}`: "
        return f"{what}it is a number from 1 to {MOST_UNITS}, without zeros in front"
    if len(words) < 4:
        return "after BUDGET come a script and 1 to 64 files"
    return None


def usage(words):
    """What is wrong with the form of the arguments, and the nearest form."""
    if any("\udc80" <= sign <= "\udcff" for word in words for sign in word):
        return "an argument isn't UTF-8"
    if not words:
        return f"no command is given: `{FORMS['check']}` checks files, `{FORMS['--help']}` tells every form"
    command = words[0]
    if command not in FORMS:
        near = difflib.get_close_matches(command.lstrip("-"), [it.lstrip("-") for it in FORMS], 1, 0.5)
        meant = next((it for it in FORMS if near and it.lstrip("-") == near[0]), "--help")
        return f"there is no command `{command}`; did you mean `{meant}`? The form is `{FORMS[meant]}`"
    if command.startswith("--"):
        return f"`{command}` stands alone: `{FORMS[command]}`"
    wrong = usage_of_run(words) if command == "run" else None
    count = len(words) - FILES[command][1]
    return f"{wrong or f'there are 1 to {MOST_FILES} files, not {max(count, 0)}'}: `{FORMS[command]}`"


def first_of(words, is_it):
    """The first of the files that is so."""
    return next((name for name in words[FILES[words[0]][0] :] if is_it(name)), None)


def told(program, status, words):
    """The line for an end, or None."""
    if status == 1:
        return "out of memory: an allocation failed, or typedefs of typedefs mean more than 100,000,000 types (README.md)"
    if status == 2:
        return f"usage: {usage(words)}"
    if status == 3:
        return ask_again(program, words, refusal)
    if status == 4:
        return ask_again(program, words, script_refusal)
    if status == 5:
        name = first_of(words, lambda it: os.path.exists(it) and (os.path.isdir(it) or not os.access(it, os.R_OK)))
        return name and f"{name}: {'is a folder' if os.path.isdir(name) else 'can not be read'}"
    if status == 6:
        name = first_of(words, lambda it: not os.path.exists(it))
        return name and f"{name}: there is no such file"
    if status == 7:
        name = first_of(words, lambda it: os.path.isfile(it) and os.path.getsize(it) > MOST_BYTES)
        return name and f"{name}: has {os.path.getsize(name)} bytes; a file has at most {MOST_BYTES}"
    return None


def main():
    try:
        line = told(sys.argv[1], int(sys.argv[2]), sys.argv[3:])
    except (OSError, IndexError, KeyError, ValueError):
        return
    if line:
        print(line.encode(errors="replace").decode())


if __name__ == "__main__":
    main()
