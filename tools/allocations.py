#!/usr/bin/env python3
"""Refuses each allocation of some runs in turn, and looks at what the program answers then.

Run at the top of the repository, after `./widl --version` has built the program:

    python3 tools/allocations.py

A small library that stands before the C library counts the allocations of the program and refuses one of them. Each run must
then end with status 1 and a prefix of its output, or as it does with ample memory. The gate doesn't run this, since it wants
a C compiler.
"""
import os
import subprocess
import sys
import tempfile

PROGRAM = os.path.abspath("crates/widl_cli/out/widl_cli")
REFUSING = r"""
#define _GNU_SOURCE
#include <dlfcn.h>
#include <errno.h>
#include <stdlib.h>
static long made = 0;
static int is_refused(void) {
    char *at = getenv("REFUSED_AT");
    made += 1;
    return at && made == atol(at);
}
void *malloc(size_t size) {
    static void *(*real)(size_t);
    if (!real) real = dlsym(RTLD_NEXT, "malloc");
    if (is_refused()) { errno = ENOMEM; return 0; }
    return real(size);
}
void *realloc(void *old, size_t size) {
    static void *(*real)(void *, size_t);
    if (!real) real = dlsym(RTLD_NEXT, "realloc");
    if (is_refused()) { errno = ENOMEM; return 0; }
    return real(old, size);
}
"""
GIVES_BACK = "steps N.f#0\nreturn arg 0\nend\n"
# what is called, with its fragment and the rest of its script
RUNS = {
    "an object": ("namespace N { any f(any a); };", "let o = object()\ndefine o.a = 1\ndo N.f(o)\n"),
    "a sequence": ("namespace N { sequence<DOMString> f(sequence<DOMString> a); };", "do N.f(array(1, object(), \"x\"))\n"),
    "a record": (
        "namespace N { record<DOMString, long> f(record<DOMString, long> a); };",
        "function g()\ndelete this.b\nreturn 1\nend\nlet o = object()\ndefine o.a get g\ndefine o.b = 2\ndefine o[\"3\"] = 3\ndo N.f(o)\n",
    ),
    "a dictionary": (
        "dictionary C { long x = 1; }; dictionary D : C { required sequence<long> l; C c = {}; DOMString s = \"q\"; }; "
        "namespace N { D f(D a); };",
        "let o = object()\ndefine o.l = array(1, 2)\ndo N.f(o)\n",
    ),
    "a union": (
        "namespace N { (boolean or record<USVString, any>)? f((boolean or record<USVString, any>)? a); undefined f(DOMString s, any b); };",
        "let o = object()\ndefine o.a = o\ndo N.f(o)\ntry\ndo N.f()\ncatch e\nshow e\nend\ndo N.f(\"s\", 1)\n",
    ),
}
# as many runs in a row that no refusal touched show that all allocations were refused
UNTOUCHED = 200


def run(folder, environment):
    done = subprocess.run(
        [PROGRAM, "run", "1000", "s", "n.idl"], cwd=folder, env={**os.environ, **environment}, capture_output=True, check=False
    )
    return done.returncode, done.stdout


def written(folder, name, text):
    """The path of a file with this text."""
    path = os.path.join(folder, name)
    with open(path, "w", encoding="utf-8") as file:
        file.write(text)
    return path


def refusals(folder, library, name):
    """How many allocations of a run were refused, each of which was answered as it should be."""
    ample = run(folder, {})
    number, short, untouched = 0, 0, 0
    while untouched < UNTOUCHED:
        number += 1
        status, text = run(folder, {"LD_PRELOAD": library, "REFUSED_AT": str(number)})
        if (status, text) == ample:
            untouched += 1
        elif status == 1 and ample[1].startswith(text):
            short, untouched = short + 1, 0
        else:
            sys.exit(f"allocations: {name}, refused at {number}, status {status}: {text!r}")
    return short


def main():
    with tempfile.TemporaryDirectory() as folder:
        library = os.path.join(folder, "refusing.so")
        source = written(folder, "refusing.c", REFUSING)
        subprocess.run(["cc", "-shared", "-fPIC", "-o", library, source, "-ldl"], check=True)
        for name, (fragment, script) in RUNS.items():
            written(folder, "n.idl", fragment)
            written(folder, "s", GIVES_BACK + script)
            short = refusals(folder, library, name)
            print(f"allocations: {name}: {short} refusals were answered by status 1 and a prefix", flush=True)


if __name__ == "__main__":
    main()
