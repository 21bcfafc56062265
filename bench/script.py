#!/usr/bin/env python3
"""Measures realistic and hostile scripts: their words with the check of form, their tables, whole scripts; and how fast nodes are put.

Run at the top of the repository, after `rt run` in crates/widl_bench has built the program:

    python3 bench/script.py

It prints the milliseconds and the bytes of memory a byte for a realistic script of 1 MiB and for 16 of 64 KiB, each alone
in a run of the program and all in one run, then the time of each hostile script of 1 MiB beside the realistic one's: first
of the words and their check, then with the tables that are built of them, whose hostile scripts break no rule of form, and
then of whole scripts, which are also asked for all other rules. These are read over a file of Web IDL, whose own time and
memory are left out too. Then it prints the time for a million nodes. Times are the least of some runs, without the start of
the program, and memory is without that of the start.
"""
import os
import random
import tempfile

from measure import least

MIB = 1 << 20
HOSTILE = {
    "do 1, each on a line": (b"", b"do 1\n", b""),
    "line feeds": (b"", b"\n", b""),
    "CRs": (b"", b"\r", b""),
    "blanks": (b"", b" ", b""),
    "one comment": (b"", b"#", b""),
    "one run": (b"", b"a", b""),
    "dashes": (b"", b"-", b""),
    "at signs": (b"", b"@", b""),
    "quotation marks": (b"", b'"', b""),
    "texts in a row": (b"", b'"a"', b""),
    "open parentheses": (b"", b"(", b""),
    "one call of many arguments": (b"do f(1", b",1", b")"),
    "one chain of members": (b"do o", b".a", b""),
    "one chain of keys": (b"do o", b"[1]", b""),
    "one integer": (b"do ", b"9", b""),
    "escapes": (b'do "', b"\\u0000", b'"'),
    "lines in 32 blocks": (b"if 1 is 1\n" * 32, b"do 1\n", b"end\n" * 32),
}
# scripts without a break of form
TABLES = {
    "one chain of members": (b"do o", b".a", b""),
    "one chain of keys": (b"do o", b"[1]", b""),
    "calls in a row": (b"do o", b"()", b""),
    "one call of many arguments": (b"do f(1", b",1", b")"),
    "one array": (b"do array(1", b",1", b")"),
    "lines in 32 blocks": (b"if 1 is 1\n" * 32, b"do 1\n", b"end\n" * 32),
    "functions": (b"", b"function f()\nend\n", b""),
    "one function of many parameters": (b"function f(p", b",p", b")\nend\n"),
    "steps blocks": (b"", b"steps N.f#0\nend\n", b""),
    "one steps block": (b"steps N.f#0\n", b"clear\n", b"end\n"),
}
LINES = (
    "let {a} = object()",
    "set {a}.{b} = {n}",
    'define hidden {a}[@iterator] = "{b} \\u00e9"',
    "do N.{b}({a}, {n}, array(1, 2, 3), this.{b})",
    "show call({a}.{b}, undefined, -{n})",
    "# what {a} and {b} are for",
    "",
    "if {a}.{b} is {n}\n    set {a}.count = {n}\nelse\n    throw new(I, {a}, null)\nend",
    "try\n    do {a}.{b}()\ncatch error\n    show error\nend",
    "function {a}({b}, {c})\n    let found = {b}({c})[{n}]\n    return found.value\nend",
    "steps N.{b}#0\n    append arg 0 literal \"{a}\"\n    return slot {c}\nend",
)
# a namespace with operations of many kinds, and how the step lines of their blocks begin
OPERATIONS = (
    ("any m{n}(any a, optional any b);", "return arg 0"),
    ("undefined m{n}(C c, long... rest);", "invoke arg 0 (literal null, literal undefined)"),
    ("long? m{n}(long a, [Clamp] long b);", "return arg 1"),
    ("DOMString m{n}(DOMString text, D d);", 'return literal "a text"'),
    ("sequence<octet> m{n}();", "return literal []"),
    ("any m{n}(C c);", "return invoke arg 0 (literal null)"),
)
# statements over names that are bound, {a} and {b} anywhere, {g} outside functions
KNOWN_LINES = (
    "let {a} = object()",
    "set {g}.{m} = {n}",
    'define hidden {g}[@iterator] = "{m} \\u00e9"',
    "do N.{m}({g}, {n}, array(1, 2, {g}), {g}.{m})",
    "show call({g}.{m}, undefined, -{n})",
    "# what {g} and {m} are for",
    "",
    "if {g}.{m} is {n}\n    set {g}.count = {n}\nelse\n    throw new(N, {g}, null)\nend",
    "try\n    do {g}.{m}()\ncatch error\n    show error\nend",
    "function {a}({b}, more)\n    let found = {b}(more)[{n}]\n    return found.value\nend",
)
# parts of long scripts over `namespace N { undefined f(C c); };` with a callback of any number of arguments: a number stands
# between two texts, again and again
RULES = {
    "names in one line, the last unknown": ("do N.f(", "N,", ",", "x)"),
    "names in lines": ("", "do N.x", "\n", ""),
    "one name": ("do a", "", "", ""),
    "different functions": ("", "function f", "()\nend\n", ""),
    "functions of one name": ("", "function f()\nlet x", " = 1\nend\n", ""),
    "one function of many parameters": ("function f(", "p", ",", "p)\nend\n"),
    "one function of many locals": ("function f()\n", "let a", " = 1\n", "end\n"),
    "blocks of one target": ("", "steps N.f#0\nthrow ", "\nend\n", ""),
    "one block of many lines": ("steps N.f#0\n", "throw ", "\n", "end\n"),
    "calls in a block": ("steps N.f#0\n", "invoke arg 0 (literal ", ")\n", "end\n"),
    "one call of many sources": ("steps N.f#0\ninvoke arg 0 (literal 0", ",literal ", "", ")\nend\n"),
}
VARIADIC = "callback C = undefined (unsigned long... a); namespace N { undefined f(C c); };"


def random_word(names):
    return "".join(names.choice("abcdefghijklmnopqrstuvwxyz_") for _ in range(names.randint(2, 12)))


def realistic(size, seed):
    names = random.Random(seed)
    word = lambda: random_word(names)
    out = []
    length = 0
    while True:
        text = names.choice(LINES).format(a="v" + word(), b="m" + word(), c="c" + word(), n=names.randint(0, 99999)) + "\n"
        if length + len(text) > size:
            return ("".join(out) + "\n" * (size - length)).encode()
        out.append(text)
        length += len(text)


def known(size, seed):
    """A file of Web IDL, and a script of the size that breaks no rule over it. Both have at most 1 MiB."""
    names = random.Random(seed)
    operations = ["any a0();"]
    bound = ["v0"]
    out = ["let v0 = object()\n"]
    length = len(out[0])
    while True:
        number = len(out)
        if names.randrange(11) == 0:
            operation, line = names.choice(OPERATIONS)
            text = f"steps N.m{number}#0\n    {line}\n    throw {number}\nend\n"
        else:
            new = f"v{random_word(names)}{number}"
            fields = dict(a=new, b="p" + random_word(names), g=names.choice(bound), m="m" + random_word(names), n=names.randint(0, 99999))
            operation, text = None, names.choice(KNOWN_LINES).format(**fields) + "\n"
        if length + len(text) > size:
            break
        if operation is None:
            bound += [new] if text.startswith(("let", "function")) else []
        else:
            operations.append(operation.format(n=number))
        out.append(text)
        length += len(text)
    file = "callback C = any (any a, optional any b); dictionary D { required long a; };\nnamespace N {\n" + "\n".join(operations) + "\n};\n"
    return file.encode(), ("".join(out) + "\n" * (size - length)).encode()


def numbered(head, front, back, tail):
    """As many numbers as 1 MiB has room for, each between two texts."""
    parts = [head]
    length = len(head) + len(tail)
    for number in range(MIB):
        part = f"{front}{number}{back}"
        if length + len(part) > MIB:
            break
        parts.append(part)
        length += len(part)
    return "".join([*parts, tail]).encode()


def operations_with_blocks(count):
    file = "namespace N {\n" + "".join(f"any f{number}();\n" for number in range(count)) + "};\n"
    return file.encode(), "".join(f"steps N.f{number}#0\nend\n" for number in range(count)).encode()


def filled(head, body, tail):
    count = (MIB - len(head) - len(tail)) // len(body)
    return head + body * count + tail


def different_names():
    text = b"".join(b"do a%d\n" % number for number in range(MIB))[:MIB]
    return text[: text.rindex(b"\n") + 1]


def row(title, seconds, memory):
    print(f"| {title} | {seconds * 1e3:.1f} | {MIB / seconds / 1e6:.0f} | {memory:.1f} |")


def measure(word, file, hostile):
    start, start_memory = least([word], 100)

    def measured(names, runs):
        seconds, memory = least([word, *names], runs)
        return seconds - start, (memory - start_memory) / MIB

    whole = [file("whole", realistic(MIB, 0))]
    parts = [file(f"part.{seed}", realistic(MIB // 16, seed)) for seed in range(16)]
    print(f"| {word} | ms a MiB | MB/s | bytes of memory a byte |\n|---|---|---|---|")
    usual, memory = measured(whole, 40)
    row("realistic, 1 MiB", usual, memory)
    alone = [measured([part], 40) for part in parts]
    row("realistic, 64 KiB", sum(one[0] for one in alone), sum(one[1] for one in alone))
    row("realistic, 16 of 64 KiB in one run", *measured(parts, 40))
    print(f"\n| {word}: hostile, 1 MiB | ms | times the realistic one | bytes of memory a byte |\n|---|---|---|---|")
    for title, text in hostile:
        seconds, memory = measured([file("hostile", text)], 20)
        print(f"| {title} | {seconds * 1e3:.1f} | {seconds / usual:.1f} | {memory:.1f} |", flush=True)
    print()


def measure_whole(file):
    def measured(idl, scripts, runs):
        """Without the time and the memory of the start and of the file of Web IDL."""
        idl = file("set.idl", idl)
        start, start_memory = least(["whole", idl], runs)
        seconds, memory = least(["whole", idl, *(file(f"whole.{number}", script) for number, script in enumerate(scripts))], runs)
        return seconds - start, (memory - start_memory) / MIB

    print("| whole | ms a MiB | MB/s | bytes of memory a byte |\n|---|---|---|---|")
    idl, script = known(MIB, 0)
    usual, memory = measured(idl, [script], 40)
    row("realistic, 1 MiB", usual, memory)
    alone = []
    for seed in range(16):
        idl, script = known(MIB // 16, seed)
        alone.append(measured(idl, [script], 40))
    row("realistic, 64 KiB", sum(one[0] for one in alone), sum(one[1] for one in alone))
    print("\n| whole: hostile, 1 MiB | ms | times the realistic one | bytes of memory a byte |\n|---|---|---|---|")
    hostile = [(title, VARIADIC.encode(), numbered(*parts)) for title, parts in RULES.items()]
    for title, idl, script in [*hostile, ("40,000 blocks on as many operations", *operations_with_blocks(40_000))]:
        seconds, memory = measured(idl, [script], 20)
        print(f"| {title} | {seconds * 1e3:.1f} | {seconds / usual:.1f} | {memory:.1f} |", flush=True)
    print()


def main():
    with tempfile.TemporaryDirectory() as folder:
        def file(name, text):
            path = os.path.join(folder, name)
            with open(path, "wb") as out:
                out.write(text)
            return path

        measure("script", file, [(title, filled(*parts)) for title, parts in HOSTILE.items()])
        tables = [(title, filled(*parts)) for title, parts in TABLES.items()]
        measure("statements", file, [*tables, ("different names", different_names())])
        measure_whole(file)
    nodes = least(["nodes"], 20)[0] - least(["script"], 100)[0]
    print(f"1,000,000 nodes: {nodes * 1e3:.1f} ms")


if __name__ == "__main__":
    main()
