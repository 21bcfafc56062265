#!/usr/bin/env python3
"""Measures the check of syntax beside the tokens that it stands on.

Run at the top of the repository, after `rt run` in crates/widl_bench has built the program:

    python3 bench/syntax.py

It prints the milliseconds a MiB of the tokens and of the check over them, for realistic IDL and for files of
1 MiB that nest as deep as they can. Times are those of the processor (user and system), the least of a few
runs, without the start of the program.
"""
import os
import subprocess
import sys
import tempfile

MIB = 1 << 20
PROGRAM = "crates/widl_bench/out/widl_bench"
PHASES = ("tokens", "syntax")
NESTED = {
    "extended attributes in arguments": b"[A(",
    "definitions": b"typedef long T;",
    "sequences": b"typedef " + b"sequence<" * 200,
    "argument lists": b"callback F = any(long a, ",
}


def run(phase, files):
    child = subprocess.Popen([PROGRAM, phase, *files], stdout=subprocess.PIPE)
    child.stdout.read()
    _, status, usage = os.wait4(child.pid, 0)
    child.returncode = status
    if status != 0:
        sys.exit(f"{PROGRAM} {phase} failed on {files[:1]}")
    return usage.ru_utime + usage.ru_stime


def least(phase, files, runs):
    return min(run(phase, files) for _ in range(runs))


def line(title, files):
    size = sum(os.path.getsize(name) for name in files)
    cost = {p: (least(p, files, 5) - least(p, [], 10)) / size * MIB * 1e3 for p in PHASES}
    tokens, both = cost["tokens"], cost["syntax"]
    print(f"| {title} | {tokens:.1f} | {both - tokens:.1f} | {(both - tokens) / tokens:.2f} |")


def main():
    print("| 8 files of 1 MiB | tokens, ms a MiB | syntax, ms a MiB | syntax by tokens |\n|---|---|---|---|")
    with tempfile.TemporaryDirectory() as folder:
        realistic = []
        for seed in range(8):
            name = os.path.join(folder, f"realistic{seed}.idl")
            with open(name, "wb") as out:
                out.write(subprocess.run([sys.executable, "bench/make_idl.py", str(MIB), str(seed)], check=True, stdout=subprocess.PIPE).stdout)
            realistic.append(name)
        line("realistic IDL", realistic)
        for title, text in NESTED.items():
            name = os.path.join(folder, "nested.idl")
            with open(name, "wb") as out:
                out.write((text * (MIB // len(text) + 1))[:MIB])
            line(title, [name] * 8)


if __name__ == "__main__":
    main()
