#!/usr/bin/env python3
"""Measures runs of hostile scripts by the program `widl`: of deep, long and endless values, and such that change while they are read.

Run at the top of the repository, after `./widl --version` has built the program:

    python3 bench/hostile.py

It prints for each run the bytes of its script, its last line, the least processor time of some runs, without the system's, and the
memory at its peak, which is at least that of this program.
"""
import os
import subprocess
import tempfile

PROGRAM = os.path.abspath("crates/widl_cli/out/widl_cli")
RUNS = 2
MIB = 1 << 20
MOST = 2_000_000
SEQUENCE = "namespace N { undefined f(sequence<any> q); };\n"
DEEP_SEQUENCE = "namespace N { undefined f(" + "sequence<" * 15 + "any" + ">" * 15 + " q); };\n"
RECORD = "namespace N { undefined f(record<DOMString, long> r); };\n"
START = "function start()\nreturn this\nend\n"


def many(form, count):
    return "".join(form.format(number) for number in range(count))


def deepest(container):
    """A chain of 256 dictionaries, the member of each in 15 of these containers."""
    chain = "".join(
        f"dictionary D{number} {{ {container * 15}D{number + 1}{'>' * 15} m; }};\n" for number in range(255)
    )
    return chain + "dictionary D255 { long m; };\nnamespace N { undefined f(optional D0 d = {}); };\n"


def iterated(step):
    """An iterator with this body of `next`, which is asked for all its elements."""
    return START + f"function step()\n{step}end\nlet r = object()\nlet o = object()\ndefine r.value = o\n" + (
        "define o[@iterator] = start\ndefine o.next = step\ndo N.f(o)\n"
    )


def holds_itself():
    """An object whose property is itself, and whose number is that of the operation."""
    return "function t()\ndo N.f(o)\nend\nlet p = object()\ndefine p.valueOf = t\nlet o = object(p)\nset o.m = o\ndo N.f(o)\n"


def nested_arrays():
    """An object of arrays down to the last dictionary, whose number is that of the operation."""
    wrap = "function w(p)\nlet o = object()\ndefine o.m = " + "array(" * 15 + "p" + ")" * 15 + "\nreturn o\nend\n"
    last = "function t()\ndo N.f(h.x)\nend\nlet h = object()\nlet p = object()\ndefine p.valueOf = t\nlet q = object()\ndefine q.m = p\n"
    return wrap + last + "define h.x = q\n" + "set h.x = w(h.x)\n" * 255 + "do N.f(h.x)\n"


def changing():
    """An array of 65,536 items, as a record: a thousand getters add and delete a key, and one deletes, hides and redefines three others."""
    return (
        "function h()\ndefine a.late = 1\ndelete a.late\nreturn 1\nend\nfunction g()\ndelete a[\"65531\"]\n"
        "define hidden a[\"65532\"] = 1\ndefine a[\"65533\"] = 7\ndefine a.late = 1\nreturn 1\nend\n"
        "let a = array(1" + ",1" * 65_535 + ")\n" + many("define a[\"{}\"] get h\n", 1_000) + "define a[\"65530\"] get g\ndo N.f(a)\n"
    )


def symbols():
    """An iterator that hides 64 symbols in its object in each of 1,024 turns; a record is made of the object then."""
    return (
        START + "function step()\nlet r = inner.next()\n" + "define hidden o[symbol()] = 1\n" * 64 + "return r\nend\nlet o = object()\n"
        "define hidden o[@iterator] = start\ndefine hidden o.next = step\nlet inner = array(0" + ",0" * 1_022 + ").values()\ndo N.f(o, o)\n"
    )


def brackets():
    """As many brackets in one another as a line may have, with 4,360 arrays in each but two."""
    script = "do N.f(" + ("array(" + "array()," * 4_360) * 30 + "1" + ")" * 31
    return script + "\n" * (MIB - len(script))


def overloads():
    """64 overloads, four of each length: a sequence, a record or a dictionary, a text, a number."""
    kinds = [["sequence<long>", "record<DOMString, long>", "DOMString", "long"], ["sequence<long>", "D", "DOMString", "long"]]
    forms = "".join(
        f"undefined f({kind} a{many(', any a{}', more)});\n" for more in range(16) for kind in kinds[more % 2]
    )
    return "dictionary D { required long x; };\nnamespace N {\n" + forms + "};\n"


def overload_calls():
    calls = ("do N.f(a" + ", 1" * 14 + ")\n") * 10 + ("do N.f(a" + ", 1" * 15 + ")\n") * 10
    values = "let o = object()\ndefine o.x = 7\nlet a = array(7)\n"
    return f"function g(a)\n{calls}end\n{values}" + "do g(a)\ndo g(o)\ndo g(\"a\")\ndo g(7)\n" * 200


# for each run its fragment and its script
HOSTILE = {
    "256 dictionaries with 15 records each, in every call": (deepest("record<DOMString, "), holds_itself()),
    "256 dictionaries with 15 sequences each, in every call": (deepest("sequence<"), nested_arrays()),
    "an iterator that never ends": (SEQUENCE, iterated("return r\n")),
    "the same, whose elements are itself at 15 levels": (DEEP_SEQUENCE, iterated("return r\n")),
    "an iterator whose `next` calls the operation": (SEQUENCE, iterated("do N.f(this)\n")),
    "65,536 keys that change": (RECORD, changing()),
    "65,536 hidden symbols, made by a `next`": (
        "namespace N { undefined f(sequence<any> q, record<DOMString, long> r); };\n", symbols()),
    "30,000 members of nothing, 60 times": (
        "dictionary D { " + many("long m{}; ", 30_000) + "};\nnamespace N { undefined f(optional D d = {}); };\n", "do N.f()\n" * 60),
    "1 MiB of arguments": ("namespace N { undefined f(octet... a); };\n", "do N.f(1" + ",1" * 524_283 + ")\n"),
    "1 MiB of an array's items, as a sequence": (
        "namespace N { undefined f(sequence<octet> q); };\n", "do N.f(array( 1" + ",1" * 524_279 + "))\n"),
    "1 MiB of an array's items, as a record": (RECORD, "do N.f(array( 1" + ",1" * 524_279 + "))\n"),
    "1 MiB of arrays in 32 brackets": (DEEP_SEQUENCE, brackets()),
    "16 levels of unions, with 16,384 numbers": (
        "namespace N { undefined f(" + "(boolean or sequence<" * 7 + "(boolean or octet)" + ">)" * 7 + " u); };\n",
        "let a = array(300, 300, 300, 300)\n" + "let a = array(a, a, a, a)\n" * 6 + "do N.f(a)\n"),
    "16,000 calls of 64 overloads over containers": (overloads(), overload_calls()),
}


def written(folder, name, text):
    """The path of a file with this text."""
    path = os.path.join(folder, name)
    with open(path, "w", encoding="utf-8") as file:
        file.write(text)
    return path


def run(folder, words):
    """The user time of a run, its memory at the peak in MiB, and its last line."""
    path = os.path.join(folder, "trace")
    with open(path, "wb") as out:
        child = subprocess.Popen([PROGRAM, *words], stdout=out)
        _, status, usage = os.wait4(child.pid, 0)
        child.returncode = status
    with open(path, "rb") as trace:
        trace.seek(max(0, os.path.getsize(path) - 100))
        last = trace.read().splitlines()[-1].decode()
    return usage.ru_utime, usage.ru_maxrss // 1024, last


def main():
    print("| a hostile run | bytes of its script | last line | s | MiB at the peak |\n|---|---|---|---|---|")
    with tempfile.TemporaryDirectory() as folder:
        for name, (idl, text) in HOSTILE.items():
            words = ["run", str(MOST), written(folder, "s", text), written(folder, "n.idl", idl)]
            measured = [run(folder, words) for _ in range(RUNS)]
            seconds, peak, last = min(measured)
            print(f"| {name} | {len(text):,} | `{last}` | {seconds:.2f} | {peak} |", flush=True)


if __name__ == "__main__":
    main()
