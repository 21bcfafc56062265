#!/usr/bin/env python3
"""Measures the choice of an overload, of a union's member and of an enumeration's value.

Run at the top of the repository, after `rt run` in crates/widl_bench has built the program:

    python3 bench/choice.py

It prints the nanoseconds of one choice: of the overloads that a number of arguments keeps, of one overload among those that
are kept and of one member of a union (both the mean of the classes of values), and of the place of one of the last two values
of an enumeration. Times are the least of some runs, without that of a run of the same files that chooses nothing.
"""
import os
import tempfile

from measure import least

RUNS = 5


def interfaces(count):
    return "".join(f"interface I{k} {{ }};\n" for k in range(count))


def overloads(count, arguments, place):
    """Overloads of so many arguments, which are told apart at a place by an interface each, and the last one by an integer; the
    arguments after it are optional."""
    lines = []
    for told in [f"I{k}" for k in range(count - 1)] + ["long"]:
        types = [f"long a{n}" for n in range(place)] + [f"{told} a{place}"]
        types += [f"optional long a{n}" for n in range(place + 1, arguments)]
        lines.append(f"undefined f({', '.join(types)});")
    return interfaces(count - 1) + "namespace N {\n" + "\n".join(lines) + "\n};\n"


def required(arguments):
    """An overload of so many arguments, none of which is optional."""
    types = ", ".join(f"long a{n}" for n in range(arguments))
    return f"namespace N {{ undefined f({types}); }};\n"


def union(count):
    """A union of so many interfaces and a text."""
    members = "".join(f"I{k} or " for k in range(count))
    return interfaces(count) + f"namespace N {{ undefined f(({members}DOMString) a); }};\n"


def enumeration(count):
    values = ", ".join(f'"v{k}"' for k in range(count))
    return f"enum E {{ {values} }};\nnamespace N {{ undefined f(E a); }};\n"


# what a row says, the word, the arguments of a call, the rounds and the set; a round of `pick` and `member` is by one of eight
# classes in its turn
NUMBER_OR_TEXT = "namespace N { undefined f(long a); undefined f(DOMString a); };\n"
ROWS = [
    ("overloads kept of 1, 1 argument", "kept", 1, 2_000_000, "namespace N { undefined f(long a); };\n"),
    ("the same, variadic, 300,000 arguments", "kept", 300_000, 2_000_000, "namespace N { undefined f(long... a); };\n"),
    ("of 1 with 64, none of them optional, 64 arguments", "kept", 64, 2_000_000, required(64)),
    ("of 1 with 64, 63 of them optional, 1 argument", "kept", 1, 2_000_000, overloads(1, 64, 0)),
    ("of 2 with a number or a text", "kept", 1, 1_000_000, NUMBER_OR_TEXT),
    ("of 64 with 64, told apart at the first", "kept", 64, 2_000, overloads(64, 64, 0)),
    ("of 64 with 64, told apart at the last", "kept", 64, 2_000, overloads(64, 64, 63)),
    ("one picked of 2", "pick", 1, 2_000_000, NUMBER_OR_TEXT),
    ("one picked of 64", "pick", 64, 200_000, overloads(64, 64, 0)),
    ("a member of 2", "member", 0, 2_000_000, "namespace N { undefined f((long or DOMString) a); };\n"),
    ("a member of 1,000 interfaces and a text", "member", 0, 10_000, union(1_000)),
    ("a member of 30,000 interfaces and a text", "member", 0, 400, union(30_000)),
    ("a value of 2", "value", 0, 5_000_000, enumeration(2)),
    ("a value of 50,000", "value", 0, 5_000_000, enumeration(50_000)),
]


def main():
    print("| choice | ns |\n|---|---|")
    with tempfile.TemporaryDirectory() as folder:
        for name, word, arguments, rounds, text in ROWS:
            path = os.path.join(folder, "a.idl")
            with open(path, "w", encoding="utf-8") as file:
                file.write(text)
            less, _ = least(["choice", word, arguments, 0, path], RUNS)
            more, _ = least(["choice", word, arguments, rounds, path], RUNS)
            print(f"| {name} | {(more - less) / rounds * 1e9:.0f} |", flush=True)


if __name__ == "__main__":
    main()
