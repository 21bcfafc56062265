#!/usr/bin/env python3
"""Measures the memory of a file's tokens and tree.

Run at the top of the repository, after `rt run` in crates/widl_bench has built the program:

    python3 bench/tree.py

It prints the bytes of memory a byte of the file at the peak, without the file itself and without what the
program takes for an empty file: for realistic IDL as it is made, for the same without comments and without the
space that no two tokens need, and for lists that have one token in each one or two bytes.
"""
import os
import re
import subprocess
import sys
import tempfile

MIB = 1 << 20
PROGRAM = "crates/widl_bench/out/widl_bench"
LISTS = {
    "arguments": (b"callback F = A(", b"A b,", b"A b);"),
    "a union": (b"typedef (", b"A or ", b"A) T;"),
    "extended attributes": (b"[", b"A,", b"A] namespace N { };"),
    "dictionary members": (b"dictionary D{", b"A b;", b"};"),
}


def peak(name):
    child = subprocess.Popen([PROGRAM, "tree", name], stdout=subprocess.PIPE)
    child.stdout.read()
    _, status, usage = os.wait4(child.pid, 0)
    child.returncode = status
    if status != 0:
        sys.exit(f"{PROGRAM} failed on {name}")
    return usage.ru_maxrss * 1024


def dense(text):
    """The text with one space between two words, and none elsewhere."""
    text = re.sub(rb"//[^\n]*|/\*.*?\*/", b" ", text, flags=re.S)
    return re.sub(rb"\b\s+(?=[\w-])", b"\0", text).translate(None, b" \t\n\r").replace(b"\0", b" ")


def main():
    with tempfile.TemporaryDirectory() as folder:
        name = os.path.join(folder, "file.idl")

        def measured(text):
            with open(name, "wb") as out:
                out.write(text)
            return peak(name)

        empty = measured(b"")
        made = subprocess.run([sys.executable, "bench/make_idl.py", str(MIB), "1"], check=True, stdout=subprocess.PIPE).stdout
        files = {"realistic IDL": made, "realistic IDL, dense": dense(made)}
        for title, (start, item, end) in LISTS.items():
            files[title] = start + item * ((MIB - len(start) - len(end)) // len(item)) + end
        print("| file | memory by bytes |\n|---|---|")
        for title, text in files.items():
            print(f"| {title} | {(measured(text) - empty - len(text)) / len(text):.1f} |")


if __name__ == "__main__":
    main()
