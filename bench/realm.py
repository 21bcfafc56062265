#!/usr/bin/env python3
"""Measures how the first store of a set of files is made.

Run at the top of the repository, after `rt run` in crates/widl_bench has built the program:

    python3 bench/realm.py

It prints, for one namespace of 10,000, 100,000 and 999,000 operations and for 999 namespaces of 1,000, the milliseconds
that the first store takes, those for each 1,000 objects, and the bytes of memory an object. Times are the least of some
runs, with the store made some number of times more than in the run that it is compared with. Memory is that of the second store, when the first has taken what the check of the files left.
"""
import os
import tempfile

from measure import least

MIB = 1 << 20


def files_of(spaces, operations):
    """Files of at most 1 MiB with so many namespaces of so many operations each."""
    files, part, size = [], [], 0
    for space in range(spaces):
        part.append(f"namespace N{space} {{\n")
        size += len(part[-1])
        for operation in range(operations):
            line = f"  undefined operation{operation}();\n"
            if size + len(line) + 4 > MIB:
                files.append("".join([*part, "};\n"]))
                part = [f"partial namespace N{space} {{\n"]
                size = len(part[0])
            part.append(line)
            size += len(line)
        part.append("};\n")
        size += 3
    return [*files, "".join(part)]


def main():
    print("| set | objects | ms | ms for each 1,000 objects | bytes of memory an object |\n|---|---|---|---|---|")
    for title, spaces, operations, more in (
        ("one namespace of 10,000 operations", 1, 10_000, 20),
        ("one namespace of 100,000 operations", 1, 100_000, 4),
        ("one namespace of 999,000 operations", 1, 999_000, 1),
        ("999 namespaces of 999 operations", 999, 999, 1),
    ):
        with tempfile.TemporaryDirectory() as folder:
            names = []
            for number, text in enumerate(files_of(spaces, operations)):
                names.append(os.path.join(folder, f"{number}.idl"))
                with open(names[-1], "w", encoding="utf-8") as out:
                    out.write(text)
            objects = 18 + spaces * (operations + 1)
            less, few = least(["realm", 1, *names], 3)
            time, memory = least(["realm", 1 + more, *names], 3)
            seconds, size = (time - less) / more, (memory - few) / more
            print(f"| {title} | {objects:,} | {seconds * 1e3:.0f} | {seconds / objects * 1e6:.2f} | {size / objects:.0f} |", flush=True)


if __name__ == "__main__":
    main()
