#!/usr/bin/env python3
"""Measures the tokens of realistic and of hostile files.

Run at the top of the repository, after `rt run` in crates/widl_bench has built the program:

    python3 bench/lex.py

It prints MB/s and peak memory for 1, 4, 16 and 64 MiB of realistic IDL in files of 1 MiB, and the time of each
hostile file of 1 MiB beside that of a realistic one, each alone in a run of the program. Times are those of the
processor, the least of some runs, without the start of the program: `user` is the program's own, `system` the
kernel's, which is nearly all for the pages of the token list (32 bytes a token, so 32 MiB for a file of 1 MiB that is
all signs).
"""
import os
import subprocess
import sys
import tempfile

MIB = 1 << 20
PROGRAM = "crates/widl_bench/out/widl_bench"
HOSTILE = {
    "points": b".",
    "comments that open, in a row": b"/*",
    "comments that open, with blanks": b"/* ",
    "quotation marks": b'"',
    "minus signs": b"-",
    "zeros": b"0",
    "1e": b"1e",
    "08": b"08",
    "one identifier": b"a",
    "line feeds": b"\n",
}


def run(files):
    """The user and system seconds and the peak memory in MiB of one run."""
    child = subprocess.Popen([PROGRAM, "tokens", *files], stdout=subprocess.PIPE)
    child.stdout.read()
    _, status, usage = os.wait4(child.pid, 0)
    child.returncode = status
    if status != 0:
        sys.exit(f"{PROGRAM} failed on {files[:1]}")
    return usage.ru_utime, usage.ru_stime, usage.ru_maxrss / 1024


def least(files, runs):
    """The least user and system seconds of some runs, by their sum, and the greatest peak memory."""
    measured = [run(files) for _ in range(runs)]
    user, system, _ = min(measured, key=lambda m: m[0] + m[1])
    return user, system, max(m[2] for m in measured)


def alone(name, start):
    """The least user and system seconds of a file by itself, without the start of the program."""
    user, system, _ = least([name], 60)
    return max(user - start[0], 0.0), max(system - start[1], 0.0)


def main():
    start = least([], 60)
    with tempfile.TemporaryDirectory() as folder:
        realistic = []
        for seed in range(8):
            name = os.path.join(folder, f"realistic{seed}.idl")
            with open(name, "wb") as out:
                made = subprocess.run([sys.executable, "bench/make_idl.py", str(MIB), str(seed)], check=True, stdout=subprocess.PIPE)
                out.write(made.stdout)
            realistic.append(name)
        print("| realistic IDL | MB/s | ms a MiB | peak memory |\n|---|---|---|---|")
        for count in (1, 4, 16, 64):
            files = [realistic[i % len(realistic)] for i in range(count)]
            size = sum(os.path.getsize(name) for name in files)
            user, system, memory = least(files, 3 if count > 16 else 9)
            seconds = user + system - start[0] - start[1]
            print(f"| {count} MiB | {size / seconds / 1e6:.0f} | {seconds / size * MIB * 1e3:.1f} | {memory:.0f} MiB |")
        usual = alone(realistic[0], start)
        print("\n| file of 1 MiB | ms user | ms system | times the realistic one |\n|---|---|---|---|")
        print(f"| realistic | {usual[0] * 1e3:.1f} | {usual[1] * 1e3:.1f} | 1.0 |")
        for title, text in HOSTILE.items():
            name = os.path.join(folder, "hostile.idl")
            with open(name, "wb") as out:
                out.write((text * (MIB // len(text) + 1))[:MIB])
            user, system = alone(name, start)
            times = (user + system) / (usual[0] + usual[1])
            print(f"| {title} | {user * 1e3:.1f} | {system * 1e3:.1f} | {times:.1f} |")


if __name__ == "__main__":
    main()
