#!/usr/bin/env python3
"""Measures the lines of a trace.

Run at the top of the repository, after `rt run` in crates/widl_bench has built the program:

    python3 bench/lines.py

It prints the milliseconds that the lines of 750,000 calls and as many returns take, and the nanoseconds a line; then those of
the line of a text of 20,000,000 units, and how many bytes of it are made a second. The lines are made and not written to a
file. Times are the least of some runs, without the start of the program, and for the text without making it.
"""
from measure import least

LINES = 1_500_000
UNITS = 20_000_000
RUNS = 5


def main():
    lines = least(["lines"], RUNS)[0] - least(["tokens"], 20)[0]
    text = least(["texts"], RUNS)[0] - least(["text"], RUNS)[0]
    print("| lines | ms | ns a line | MB/s |\n|---|---|---|---|")
    print(f"| {LINES:,} of calls and returns | {lines * 1e3:.0f} | {lines / LINES * 1e9:.0f} | |")
    print(f"| one of a text of {UNITS:,} units | {text * 1e3:.0f} | | {UNITS / text / 1e6:.0f} |")


if __name__ == "__main__":
    main()
