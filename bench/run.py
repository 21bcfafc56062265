#!/usr/bin/env python3
"""Measures runs of scripts by the program `widl`.

Run at the top of the repository, after `./widl --version` has built the program:

    python3 bench/run.py

It prints the seconds of processor time that runs take which use up a budget of 2,000,000 units and one of 20,000, without the
time of a run of the same files with a budget of one unit, and the nanoseconds a unit, with the seconds of the program and the
system together where the trace goes to a file, its bytes and the calls of `write` of that run; then the microseconds that an item of a
container takes where there are few and where there are many, without the time of a run that ends in front of the calls; then the
milliseconds of whole runs (the reading of the files, their check, the first objects, the run); and what the start of a run over a
file of 1 MiB takes beside its `check`. Times are of the processor, without the system's where nothing else is said, the least of some runs.
"""
import itertools
import os
import resource
import string
import subprocess
import tempfile

PROGRAM = os.path.abspath("crates/widl_cli/out/widl_cli")
RUNS = 5
MIB = 1 << 20
ANY = "namespace N { any f(any a); };\n"
OCTET = "namespace N { undefined f(octet a); };\n"
FIVE = "(boolean or octet or DOMString or sequence<long> or record<DOMString, long>)"
UNION = f"namespace N {{ undefined f({FIVE}... a); }};\n"
ENFORCED = "namespace N { undefined f([EnforceRange] octet a); };\n"
METHOD = "function v()\n  return 300\nend\nlet o = object()\nset o.valueOf = v\n"
SEQUENCE = "namespace N { undefined f(sequence<any> q); };\n"
# an iterator that never ends
ITERATOR = """function start()
  return this
end
function step()
  return turn
end
let turn = object()
define turn.value = 1
let o = object()
define o[@iterator] = start
define o.next = step
"""
RECORD = "namespace N { undefined f(record<DOMString, long> r); };\n"


def many(form, count):
    return "".join(form.format(number) for number in range(count))


def dictionary(count):
    """A dictionary of so many members."""
    return "dictionary D { " + many("long m{}; ", count) + "};\nnamespace N { undefined f(optional D d = {}); };\n"


def line(count):
    """Files of dictionaries, each of which inherits from the one before, and of which the first alone has a member."""
    rest = [f"dictionary D{number}:D{number - 1}{{}};" for number in range(1, count)]
    files = ["".join(rest[first : first + 30_000]) for first in range(0, len(rest), 30_000)]
    return ["dictionary D0 { long a; };\n" + f"namespace N {{ undefined f(optional D{count - 1} d = {{}}); }};\n"] + files


def keys(count):
    """An object of so many properties, whose names have three letters."""
    names = itertools.product(string.ascii_uppercase, string.ascii_letters, string.ascii_letters)
    return "let o=object()\n" + "".join(f"define o.{''.join(name)}=1\n" for name in itertools.islice(names, count))


def array(items):
    """An array of these items."""
    return "let a = array(" + ",".join(items) + ")\n"


def ring(count, ends):
    """An iterator that goes round so many turns, which ends at the last one or never."""
    turns = "".join("let t = object()\ndefine t.value = 1\nset t.rest = h\nlet h = t\n" for _ in range(count - 1))
    last = "define l.done = true\n" if ends else "define l.value = 1\n"
    return (
        "function start()\nset this.at = l\nreturn this\nend\nfunction step()\nset this.at = this.at.rest\nreturn this.at\nend\n"
        "let l = object()\nlet h = l\n" + last + turns + "set l.rest = h\n"
        "let o = object()\ndefine o[@iterator] = start\ndefine o.next = step\n"
    )


SCALARS = "(boolean or long or DOMString or object)"
GIVES_BACK = "steps N.f#0\n  return arg 0\nend\n"


def takes(kind):
    """An operation that takes values of this type."""
    return [f"namespace N {{ undefined f({kind} a); }};\n"]


def gives_back(kind):
    """An operation that takes and gives values of this type."""
    return [f"namespace N {{ {kind} f({kind} a); }};\n"]


def numbers(count):
    return array(["7"] * count)


def classes(count):
    return array((["true", "7", '"x"', "N", "null"] * count)[:count])


def overloads():
    """The most overloads that a name may have, of 1 to 64 arguments."""
    return "namespace N {\n" + "".join(f"undefined f(any a{many(', any a{}', more)});\n" for more in range(64)) + "};\n"


# a script that uses up a budget: its fragment, what comes once, and the line that comes again and again
BUDGETS = {
    "statements alone": (ANY, "let x = 0\n", "let x = 1\n"),
    "shown values": (ANY, "", "show 1\n"),
    "calls of a function": (ANY, "function f(a)\n  return a\nend\n", "do f(1)\n"),
    "calls of an operation": (ANY, "steps N.f#0\n  return arg 0\nend\n", "do N.f(1)\n"),
    "calls of one of two overloads": ("namespace N { undefined f(DOMString a); undefined f(long a); };\n", "", "do N.f(1)\n"),
    "calls of one of 64 overloads": (overloads(), "", "do N.f(1)\n"),
    "calls that convert a number": (OCTET, "", "do N.f(300)\n"),
    "calls that convert a number to a union": (UNION, "", "do N.f(300)\n"),
    "calls that convert a text": ("namespace N { undefined f(DOMString a); };\n", "", 'do N.f("ten letter")\n'),
    "calls that convert a text to a union": (UNION, "", 'do N.f("ten letter")\n'),
    "calls of one of 1,000 operations": ("namespace N {\nundefined f(octet a);\n" + many("undefined g{}(octet a);\n", 999) + "};\n", "", "do N.f(300)\n"),
    "calls of an operation with 10,000 lines": (ANY, "steps N.f#0\n" + "  return arg 0\n" * 10_000 + "end\n", "do N.f(1)\n"),
    "calls of an operation that throws": (ANY, "steps N.f#0\n  throw 7\nend\n", "try\ndo N.f(1)\ncatch e\nend\n"),
    "conversions by a `valueOf`": (OCTET, METHOD, "do N.f(o)\n"),
    "reads by a getter": (ANY, "function g()\n  return 1\nend\nlet o = object()\ndefine o.a get g\n", "do o.a\n"),
    "new objects": (ANY, "", "do object()\n"),
    "turns of an iterator": (SEQUENCE, ITERATOR, "do N.f(o)\n"),
    "keys of a record": (RECORD, keys(256), "do N.f(o)\n"),
    "ten members of an object": (dictionary(10), "let o = object()\n", "do N.f(o)\n"),
    "elements of an array": (SEQUENCE, numbers(100), "do N.f(a)\n"),
    "elements of an array, there and back": ("namespace N { sequence<any> f(sequence<any> q); };\n", GIVES_BACK + numbers(100), "do N.f(a)\n"),
}

# conversions with few items and with many: for each how many stand together, how many there are in all calls, the fragments, what comes
# once, its units, and the calls
ITEMS = {
    "turns of an iterator": [
        (1_000, 1_000 * 300, [SEQUENCE], ring(1_000, True), 5_008, "do N.f(o)\n" * 300),
        (331_000, 331_000, [SEQUENCE], ring(1_000, False), 5_008, "do N.f(o)\n"),
    ],
    "keys of a record": [
        (256, 256 * 512, [RECORD], keys(256), 258, "do N.f(o)\n" * 512),
        (65_536, 65_536 * 2, [RECORD], keys(65_536), 65_538, "do N.f(o)\n" * 2),
    ],
    "keys of a record, there and back": [
        (256, 256 * 512, gives_back("record<DOMString, long>"), GIVES_BACK + keys(256), 258, "do N.f(o)\n" * 512),
        (65_536, 65_536 * 2, gives_back("record<DOMString, long>"), GIVES_BACK + keys(65_536), 65_538, "do N.f(o)\n" * 2),
    ],
    "members of an object": [
        (10, 10 * 30_000, [dictionary(10)], "let o = object()\n", 2, "do N.f(o)\n" * 30_000),
        (30_000, 30_000 * 10, [dictionary(30_000)], "let o = object()\n", 2, "do N.f(o)\n" * 10),
    ],
    "members of nothing": [
        (10, 10 * 30_000, [dictionary(10)], "", 1, "do N.f()\n" * 30_000),
        (30_000, 30_000 * 10, [dictionary(30_000)], "", 1, "do N.f()\n" * 10),
    ],
    "conversions below one dictionary, and below many": [
        (1, 30_000, line(1), "let o = object()\n", 2, "do N.f(o)\n" * 30_000),
        (60_000, 30_000, line(60_000), "let o = object()\n", 2, "do N.f(o)\n" * 30_000),
    ],
    "elements of an array": [
        (100, 100 * 2_300, takes("sequence<long>"), numbers(100), 2, "do N.f(a)\n" * 2_300),
        (240_000, 240_000, takes("sequence<long>"), numbers(240_000), 2, "do N.f(a)\n"),
    ],
    "elements of an array, there and back": [
        (100, 100 * 2_300, gives_back("sequence<long>"), GIVES_BACK + numbers(100), 2, "do N.f(a)\n" * 2_300),
        (240_000, 240_000, gives_back("sequence<long>"), GIVES_BACK + numbers(240_000), 2, "do N.f(a)\n"),
    ],
    "elements of an array, to a union of scalars": [
        (100, 100 * 1_000, takes(f"sequence<{SCALARS}>"), classes(100), 2, "do N.f(a)\n" * 1_000),
        (100_000, 100_000, takes(f"sequence<{SCALARS}>"), classes(100_000), 2, "do N.f(a)\n"),
    ],
    "arguments, to a number and to a union of five": [
        (300_000, 300_000, takes("octet..."), "", 1, "do N.f(1" + ",1" * 299_999 + ")\n"),
        (300_000, 300_000, [UNION], "", 1, "do N.f(1" + ",1" * 299_999 + ")\n"),
    ],
}


def filled(line):
    """A script of 1 MiB of a line."""
    return line * (MIB // len(line))


def nested(line, times):
    """A script that does a line that often in a function that is called by others, so that a short text uses up a budget."""
    text = [f"function l0()\n{line * 100}end\n"]
    level, reached = 0, 100
    while reached < times:
        level += 1
        text.append(f"function l{level}()\n" + f"do l{level - 1}()\n" * 100 + "end\n")
        reached *= 100
    return "".join(text) + f"do l{level}()\n"


# whole runs: their fragments and their script
WHOLE = {
    "12,000 calls that convert a number": ([OCTET], "do N.f(300)\n" * 12_000),
    "1 MiB of objects, calls and shown values": ([ANY], filled("let o = object()\nset o.a = N.f(o)\nshow o.a\n")),
    "1 MiB of conversions that fail": ([ENFORCED], METHOD + "try\ndo N.f(o)\ncatch e\nend\n" * 40_000),
    "a record of 65,536 keys": ([RECORD], keys(65_536) + "do N.f(o)\n"),
    "one call of 300,000 arguments": (takes("octet..."), "do N.f(1" + ",1" * 299_999 + ")\n"),
    "10,000 calls of 64 overloads, with 64 arguments": (
        [overloads()], "function g(a)\ndo N.f(a" + ",a" * 63 + ")\nend\n" + nested("do g(7)\n", 10_000)),
    "10,000 calls with one of 50,000 values": (
        ['enum E { "a"' + many(', "v{}"', 49_999) + " }; namespace N { undefined f(E a); };\n"],
        nested('do N.f("v49998")\n', 10_000)),
    "a hundred open calls, whose conversions wait": (
        [OCTET], "function v()\n  return N.f(this)\nend\nlet o = object()\nset o.valueOf = v\ndo N.f(o)\n"),
    "64 files of parts of a namespace": (
        ["namespace N { };\n"] + [f"partial namespace N {{ undefined f{part}(octet a); }};\n" for part in range(63)],
        many("do N.f{}(300)\n", 63) * 200),
    "64 files and a script, each of 1 MiB of blanks": ([" " * MIB] * 64, " " * MIB),
    "a type that isn't served, and a script of 1 MiB": ([ANY, "namespace M { undefined f(Promise<any> a); };\n"], filled("do N.f(1)\n")),
}


def seconds(words):
    """The least user time of some runs."""
    found = []
    for _ in range(RUNS):
        before = resource.getrusage(resource.RUSAGE_CHILDREN).ru_utime
        subprocess.run([PROGRAM, *words], stdout=subprocess.DEVNULL, check=False)
        found.append(resource.getrusage(resource.RUSAGE_CHILDREN).ru_utime - before)
    return min(found)


def streamed(words, path):
    """The least user and system time together of some runs that write to a file, the bytes written, and the calls of `write`."""
    found, calls = [], 0
    for _ in range(RUNS):
        before = resource.getrusage(resource.RUSAGE_CHILDREN)
        with open(path, "wb") as trace, subprocess.Popen([PROGRAM, *words], stdout=trace) as run:
            os.waitid(os.P_PID, run.pid, os.WEXITED | os.WNOWAIT)
            with open(f"/proc/{run.pid}/io", encoding="ascii") as counts:
                calls = int(counts.read().split("syscw: ")[1].split()[0])
        after = resource.getrusage(resource.RUSAGE_CHILDREN)
        found.append(after.ru_utime + after.ru_stime - before.ru_utime - before.ru_stime)
    return min(found), os.path.getsize(path), calls


def written(folder, name, text):
    """The path of a file with this text."""
    path = os.path.join(folder, name)
    with open(path, "w", encoding="utf-8") as file:
        file.write(text)
    return path


def budgets(folder):
    print("| a run of | s for 2,000,000 units | ns a unit | ns a unit at 20,000 | s with the system's, to a file | MB | calls of `write` |")
    print("|---|---|---|---|---|---|---|")
    for name, (idl, once, again) in BUDGETS.items():
        script = written(folder, "s", once + nested(again, 2_000_000))
        fragment = written(folder, "n.idl", idl)
        start = seconds(["run", "1", script, fragment])
        large = seconds(["run", "2000000", script, fragment]) - start
        small = seconds(["run", "20000", script, fragment]) - start
        trace = os.path.join(folder, "trace")
        empty, _, _ = streamed(["run", "1", script, fragment], trace)
        both, size, calls = streamed(["run", "2000000", script, fragment], trace)
        row = f"{large:.2f} | {large / 2_000_000 * 1e9:.0f} | {small / 20_000 * 1e9:.0f} | {both - empty:.2f} | {size / 1e6:.1f} | {calls:,}"
        print(f"| {name} | {row} |")


def items(folder):
    print("\n| items | of how many together | µs an item | of how many together | µs an item | times |\n|---|---|---|---|---|---|")
    for name, rows in ITEMS.items():
        cells, found = [], []
        for together, count, idls, once, units, again in rows:
            script = written(folder, "items", once + again)
            fragments = [written(folder, f"{place}.idl", idl) for place, idl in enumerate(idls)]
            before = seconds(["run", str(units), script, *fragments])
            found.append((seconds(["run", "2000000", script, *fragments]) - before) / count * 1e6)
            cells.append(f"{together:,} | {found[-1]:.2f}")
        print(f"| {name} | {' | '.join(cells)} | {found[1] / found[0]:.2f} |")


def whole(folder):
    print("\n| a whole run of | ms |\n|---|---|")
    for name, (idls, text) in WHOLE.items():
        script = written(folder, "whole", text)
        fragments = [written(folder, f"{place}.idl", idl) for place, idl in enumerate(idls)]
        print(f"| {name} | {seconds(['run', '2000000', script, *fragments]) * 1e3:.0f} |")


def start(folder):
    """What an empty script takes over a namespace of many operations, beside the check of the file."""
    script = written(folder, "empty", "")
    fragment = written(folder, "large.idl", "namespace N {\n" + many("any f{}(any a);\n", 52_000) + "};\n")
    check = seconds(["check", fragment]) * 1e3
    run = seconds(["run", "1", script, fragment]) * 1e3
    print(f"\nA file of 52,000 operations: {check:.0f} ms for its check, {run:.0f} ms for the start of a run ({run / check:.2f} times).")


def main():
    with tempfile.TemporaryDirectory() as folder:
        budgets(folder)
        items(folder)
        whole(folder)
        start(folder)


if __name__ == "__main__":
    main()
