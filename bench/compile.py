#!/usr/bin/env python3
"""Measures the tables that a run looks things up in, beside the check of the same files.

Run at the top of the repository, after `rt run` in crates/widl_bench has built the program:

    python3 bench/compile.py

It prints for each set of files that is accepted the milliseconds of its check, those of its tables and what part of the check they
take: of the hostile sets of `bench/check.py` and of some that make the tables large. Times are the least of some runs; those of the
tables are what a run that makes them takes more than one that doesn't.
"""
import os
import subprocess
import sys
import tempfile

from check import MIB, hostile, numbered, pack
from measure import PROGRAM, least

RUNS = 3


def realistic():
    words = [sys.executable, "bench/make_idl.py", str(MIB - 4096), "0"]
    return [subprocess.run(words, check=True, stdout=subprocess.PIPE, text=True).stdout]


def sets():
    return {
        "realistic, one file": realistic(),
        **hostile(),
        "60,000 empty dictionaries in one chain": pack(["dictionary D0{};"] + numbered("dictionary D{next}:D{this}{{}};", 60_000)),
        "a dictionary of 30,000 members": pack(["dictionary D{" + "".join(numbered("long m{this};", 30_000)) + "};"]),
        "25,000 dictionaries of a member each": pack(numbered("dictionary D{this}{{long m;}};", 25_000)),
        "an enumeration of 50,000 values": pack(["enum E{" + ",".join(numbered('"v{this}"', 50_000)) + "};"]),
    }


def is_accepted(names):
    return subprocess.run([PROGRAM, "compile", "set", *names], stdout=subprocess.DEVNULL, stderr=subprocess.DEVNULL).returncode == 0


def main():
    print("| set | ms of the check | ms of the tables | part |\n|---|---|---|---|")
    with tempfile.TemporaryDirectory() as folder:
        for title, texts in sets().items():
            names = [os.path.join(folder, f"{number}.idl") for number in range(len(texts))]
            for name, text in zip(names, texts):
                with open(name, "w", encoding="utf-8") as out:
                    out.write(text)
            if not is_accepted(names):
                continue
            check, _ = least(["compile", "set", *names], RUNS)
            whole, _ = least(["compile", "tables", *names], RUNS)
            tables = whole - check
            print(f"| {title} | {check * 1e3:.0f} | {tables * 1e3:.1f} | {tables / check:.3f} |", flush=True)


if __name__ == "__main__":
    main()
