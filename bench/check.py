#!/usr/bin/env python3
"""Measures the words `check` on realistic and on hostile sets of files.

Run at the top of the repository, after `rt run` in crates/widl_cli has built the program:

    python3 bench/check.py

It prints, for each set, the milliseconds, those a MiB and how many times the realistic file's that is, the memory at
the peak (for small sets what this script itself holds, which the system counts to a child), and the line that the program writes. Times are those of the processor (user and system), the least of three runs, without the start
of the program. "Asked" is the work that a set asks for, in MiB: the greater of its bytes and 8 bytes for each of its tokens, of
which the realistic file has one in 8 bytes, where what is mixed in and what typedefs stand for count as if they were written out.

    python3 bench/check.py BEFORE

compares the program with an earlier one on realistic IDL of 1 and 8 MiB instead: eleven runs of each in turn.
"""
import os
import re
import statistics
import subprocess
import sys
import tempfile

MIB = 1 << 20
PROGRAM = os.path.abspath("crates/widl_cli/out/widl_cli")


# A text, a name or a word, a number, an ellipsis or a sign; comments are taken out before.
TOKEN = re.compile(r'"[^"]*"|[_-]?[A-Za-z][0-9A-Z_a-z-]*|-?[0-9][0-9A-Za-z.]*|\.\.\.|[^\s0-9A-Za-z]')
COMMENT = re.compile(r"//[^\n]*|/\*.*?\*/", re.DOTALL)


def asked(text):
    """The bytes of work that a text asks for."""
    return max(len(text), 8 * len(TOKEN.findall(COMMENT.sub("", text))))


def run(files, program=PROGRAM):
    child = subprocess.Popen([program, "check", *files], stdout=subprocess.PIPE)
    line = child.stdout.read().decode().strip()
    _, status, usage = os.wait4(child.pid, 0)
    child.returncode = status
    return usage.ru_utime + usage.ru_stime, usage.ru_maxrss / 1024, line


def pack(items):
    """Files of at most 1 MiB each that hold these definitions in order."""
    files, size, part = [], 0, []
    for item in items:
        if size + len(item) > MIB:
            files.append("".join(part))
            size, part = 0, []
        part.append(item)
        size += len(item)
    return files + ["".join(part)]


def numbered(form, count):
    return [form.format(this=number, next=number + 1) for number in range(count)]


def mixed_in(members, times):
    """A mixin of these members in so many interfaces, and what it brings to all of them."""
    return [f"interface mixin M{{{members}}};" + "".join(numbered("interface A{this}{{}};A{this} includes M;", times))], times * asked(members)


def doubled(times):
    """Typedefs of which each stands for two of the one before, and the last one's type written out."""
    written, definitions = "long", "typedef long Twice0;"
    for number in range(times):
        written = f"(sequence<{written}> or record<DOMString,{written}>)"
        definitions += f"typedef (sequence<Twice{number}> or record<DOMString,Twice{number}>) Twice{number + 1};"
    return definitions, written


def unions(members, times):
    """Typedefs of unions, each of so many sequences of the typedef before it."""
    return "typedef long T0;" + "".join("typedef (" + " or ".join([f"sequence<T{number}>"] * members) + f") T{number + 1};" for number in range(times))


def hostile():
    """The sets, and for those with mixins or typedefs that double the bytes of work that these bring."""
    operations = "".join(f"undefined f{number}();" for number in range(1000))
    same = "".join(f"long a{place}," for place in range(63))
    overloads = "".join(f"undefined f({same}I{number} b);" for number in range(64))
    optional = "".join(f",optional long a{place}" for place in range(63))
    shortened = "".join(f"undefined f(I{number} b{optional});" for number in range(64))
    wide = "".join(f"undefined f{number}(" + ",".join(numbered("long a{this}", 24)) + ");" for number in range(1000))
    long_name, longer_name = "T" * 100_000, "o" * 400_000
    twice, written = doubled(7)
    brought = {
        "a mixin in 998 interfaces": mixed_in(operations, 998),
        "a mixin of 1,000 operations of 24 arguments in 998 interfaces": mixed_in(wide, 998),
        "a mixin with a name of 400,000 bytes in 16,000 interfaces": mixed_in(f"undefined {longer_name}();", 16_000),
        "7 typedefs that double, in 4,000 arguments": (
            [twice + "namespace N{" + "".join(numbered("undefined f{this}(Twice7 a);", 4_000)) + "};"], 4_000 * asked(written)),
    }
    sets = {
        "3,000,000 definitions": pack(numbered("typedef long T{this};", 3_000_000)),
        "60,000 interfaces in one chain": pack(numbered("interface A{this}:A{next}{{}};", 60_000) + ["interface A60000{};"]),
        "the same, parents first": pack(["interface A0{};"] + numbered("interface A{next}:A{this}{{}};", 60_000)),
        "typedefs in one chain": pack(numbered("typedef A{next} A{this};", 45_000) + ["typedef long A45000;"]),
        "the same, the other way": pack(["typedef long A0;"] + numbered("typedef A{this} A{next};", 45_000)),
        "typedefs in one circle": pack(numbered("typedef A{next} A{this};", 45_000) + ["typedef A0 A45000;"]),
        "500,000 partials of one interface": pack(["interface A{};"] + ["partial interface A{};"] * 500_000),
        "one name in 45,000 definitions": pack(["interface ABC {};"] * 45_000),
        "130,000 operations of one name": pack(["interface A{" + "any a();" * 130_000 + "};"]),
        "25,000 dictionaries in one chain": pack(["dictionary D0{};"] + numbered("dictionary D{next}:D{this}{{long a{this};}};", 25_000)),
        "35,000 interfaces below one iterable": pack(["interface A0{iterable<long,long>;};"] + numbered("interface A{next}:A{this}{{}};", 35_000)),
        "a union of 30,000 interfaces": pack(["".join(numbered("interface A{this}{{}};", 30_000)) + "typedef (" + " or ".join(numbered("A{this}", 30_000)) + ") T;"]),
        "20 names of 64 overloads of 64 arguments": pack(["".join(numbered("interface I{this}{{}};", 64))] + numbered("namespace N{this}{{" + overloads + "}};", 20)),
        "an ellipsis beside 30,000 arguments": pack(["namespace N {undefined f(any... a);undefined f(" + ",".join(numbered("any a{this}", 30_000)) + ");};"]),
        "30,000 ellipses beside 10,000 arguments": pack(["namespace N {" + "undefined f(any... a);" * 30_000 + "undefined f(" + ",".join(numbered("any a{this}", 10_000)) + ");};"]),
        "4 typedefs of unions of 100 sequences of the one before": [unions(100, 4)],
        "the same of 40": [unions(40, 4)],
        "3 typedefs of unions of 1,000 sequences of the one before": [unions(1000, 3)],
        "2 typedefs of unions of 8,000 sequences of the one before": [unions(8000, 2)],
        "the 4 in an attribute": [unions(100, 4) + "interface A{attribute sequence<T4> a;};"],
        "`?` after `?`, through 17 typedefs": pack(["typedef long? T0;"] + numbered("typedef T{this}? T{next};", 16)),
        "a typedef's name of 100,000 bytes, through another in 5,000 arguments": pack(
            [f"typedef long {long_name};typedef {long_name} T;namespace N{{" + "".join(numbered("undefined f{this}(T a);", 5_000)) + "};"]),
        "a union of 20,000 interfaces and a text, with a default of 80,000 bytes": pack(
            ["".join(numbered("interface A{this}{{}};", 20_000)) + "dictionary D{(" + " or ".join(numbered("A{this}", 20_000)) + ' or DOMString) a="' + "x" * 80_000 + '";};']),
        "a mixin of 1,000 operations in 8,001 interfaces": pack([f"interface mixin M{{{operations}}};" + "".join(numbered("interface A{this}{{}};A{this} includes M;", 8_001))]),
        "10 names of 64 overloads, 63 arguments of each optional": pack(["".join(numbered("interface I{this}{{}};", 64))] + numbered("namespace N{this}{{" + shortened + "}};", 10)),
    }
    return {title: (parts, 0) for title, parts in sets.items()} | brought


def realistic(count):
    return [
        subprocess.run([sys.executable, "bench/make_idl.py", str(MIB - 4096), str(seed)], check=True, stdout=subprocess.PIPE, text=True).stdout
        for seed in range(count)
    ]


def compare(before, written):
    print("| set | median ms before | now | ratio | least ms before | now | ratio |\n|---|---|---|---|---|---|---|")
    for count in (1, 8):
        names = written(realistic(count))
        times = {before: [], PROGRAM: []}
        for _ in range(11):
            for program in times:
                times[program].append(run(names, program)[0] * 1e3)
        then, now = times[before], times[PROGRAM]
        median, least = (statistics.median(then), statistics.median(now)), (min(then), min(now))
        print(f"| realistic, {count} files | {median[0]:.0f} | {median[1]:.0f} | {median[1] / median[0]:.2f} | {least[0]:.0f} | {least[1]:.0f} | {least[1] / least[0]:.2f} |")


def main():
    with tempfile.TemporaryDirectory() as folder:
        def written(texts):
            names = []
            for number, text in enumerate(texts):
                names.append(os.path.join(folder, f"{number}.idl"))
                with open(names[-1], "w", encoding="utf-8") as out:
                    out.write(text)
            return names

        if len(sys.argv) > 1:
            compare(os.path.abspath(sys.argv[1]), written)
            return
        start = min(run(written([""]))[0] for _ in range(10))
        print("| set | MiB | asked, MiB | ms | ms a MiB asked | times realistic | peak MiB | line |\n|---|---|---|---|---|---|---|---|")
        whole = None
        sets = {f"realistic, {count} files": (realistic(count), 0) for count in (1, 4, 16, 64)}
        for title, (parts, brought) in (sets | hostile()).items():
            names = written(parts)
            size = sum(os.path.getsize(name) for name in names) / MIB
            work = (sum(map(asked, parts)) + brought) / MIB
            runs = [run(names) for _ in range(3)]
            time = (min(r[0] for r in runs) - start) * 1e3
            cost = time / work
            whole = whole or cost
            print(f"| {title} | {size:.1f} | {work:.1f} | {time:.0f} | {cost:.1f} | {cost / whole:.1f} | {runs[0][1]:.0f} | `{runs[0][2]}` |", flush=True)


if __name__ == "__main__":
    main()
