#!/usr/bin/env python3
"""Compares docs/RULES.md with the program and with the sources.

    python3 tools/rules.py [PROGRAM]

Run at the top of the repository, after the program is built (crates/widl_cli/out/widl_cli, if none is named). Each
example is given to `check`, and what is written must be what stands there. Each rule's identifier must be a variant with
the rule's number, and its predicate's file must name the rule. Nothing is proved by this: it keeps the documents from
telling what isn't so.
"""
import os
import re
import subprocess
import sys
import tempfile

TOP = os.path.dirname(os.path.dirname(os.path.abspath(__file__)))
PROGRAM = os.path.join(TOP, "crates", "widl_cli", "out", "widl_cli")
SECONDS = 120
ENUMS = {
    "Finding": "crates/widl_front/src/finding.rt",
    "ProfileRule": "crates/widl_idl/src/profile_rule.rt",
    "MergingRule": "crates/widl_idl/src/merging_rule.rt",
    "ValidityRule": "crates/widl_overload/src/validity_rule.rt",
}


def joined(form, count):
    return "".join(form.format(this=number, next=number + 1) for number in range(count))


# The examples that RULES.md tells in words.
MAKERS = {
    "utf8": lambda: b"\x80",
    "deep": lambda: "typedef " + "sequence<" * 17,
    "11": lambda: "typedef long T0;\n" + joined("typedef sequence<T{this}> T{next};\n", 16),
    "48": lambda: "interface mixin M {\n" + joined("  undefined f{this}();\n", 1000) + "};\n"
    + joined("interface I{this} {{ }};\nI{this} includes M;\n", 999),
    "44": lambda: joined("interface I{this} {{ }};\n", 65) + "interface J {\n"
    + joined("  undefined f(I{this} a);\n", 65) + "};\n",
    "45": lambda: "namespace N {\n  undefined f(\n    long a0" + joined(",\n    long a{next}", 64) + ");\n};\n",
    "47": lambda: "dictionary D0 { };\n" + joined("dictionary D{next} {{ D{this} a; }};\n", 256),
}


class Rule:
    """A row of RULES.md."""

    def __init__(self, cells):
        self.name = cells[0].strip("`")
        self.example, self.output, self.identifier = cells[3], cells[4].strip("`"), cells[5].strip("`")
        self.predicates = re.findall(r"`([^`]+)`", cells[6])

    def file(self):
        """The bytes of the example, or None where it is told in words and no maker stands above."""
        if self.name in MAKERS:
            made = MAKERS[self.name]()
            return made if isinstance(made, bytes) else made.encode()
        literal = re.fullmatch(r"`([^`]+)`", self.example)
        return literal[1].encode() if literal else None


def read(path):
    with open(os.path.join(TOP, path), encoding="utf-8") as file:
        return file.read()


def rules():
    """The rows of RULES.md with seven columns or, for the profile, eight: these are those of rules."""
    found = []
    for line in read("docs/RULES.md").splitlines():
        cells = [cell.strip() for cell in line.strip().strip("|").split(" | ")]
        if line.startswith("|") and len(cells) in (7, 8) and cells[0] != "rule":
            found.append(Rule(cells))
    return found


def run(program, arguments, folder):
    """What the program writes to standard output."""
    try:
        ran = subprocess.run([program, *arguments], cwd=folder, stdout=subprocess.PIPE, timeout=SECONDS)
    except subprocess.TimeoutExpired:
        return f"no end after {SECONDS} seconds"
    return ran.stdout.decode(errors="replace").rstrip("\n")


def run_rules(program, faults):
    """Runs the example of each rule. The number of examples."""
    with tempfile.TemporaryDirectory() as folder:
        for rule in rules():
            example = rule.file()
            if example is None:
                faults.append(f"rule {rule.name}: its example is neither a text nor made by tools/rules.py")
                continue
            with open(os.path.join(folder, "a.idl"), "wb") as file:
                file.write(example)
            written = run(program, ["check", "a.idl"], folder)
            if written != rule.output:
                faults.append(f"rule {rule.name}: the program writes '{written}', docs/RULES.md says '{rule.output}'")
    return len(rules())


def number_of(rule):
    """The number that the code gives to a rule: those of the profile are over 100."""
    return 100 + int(rule[1:]) if rule.startswith("X") else int(rule)


def is_variant(rule):
    """Whether the identifier is a variant of its enum, and has the rule's number."""
    enum, _, variant = rule.identifier.partition("::")
    if enum not in ENUMS:
        return False
    source = read(ENUMS[enum])
    if enum == "Finding":
        return re.search(rf"^    {variant}\(", source, re.M) is not None
    label = rule.name if rule.name.startswith("X") else f"Rule {rule.name}"
    return f"/// {label}: " in source and f"{enum}::{variant} => {number_of(rule.name)}," in source


def names_rule(rule, path):
    """Whether a file of predicates names the rule where its predicate stands."""
    try:
        text = read(f"crates/{path}")
    except OSError:
        return False
    if rule.name.isdigit():
        return re.search(rf"^.*--.*\brules? (.*\b)?{rule.name}\b", text, re.M) is not None
    if rule.name.startswith("X"):
        return re.search(rf"-- {rule.name}\b", text) is not None
    return f'codes "{rule.name}"' in text


def compare_names(faults):
    """Looks the identifiers and predicates of all rules up. The number of identifiers."""
    for rule in rules():
        if not is_variant(rule):
            faults.append(f"rule {rule.name}: {rule.identifier} isn't the variant with this number")
        for path in rule.predicates or ["(none)"]:
            if not names_rule(rule, path):
                faults.append(f"rule {rule.name}: {path} doesn't name it")
    listed = {rule.identifier for rule in rules()}
    for enum, path in ENUMS.items():
        source = read(path)
        for variant in sorted(set(re.findall(rf"{enum}::(\w+) => \d+", source))):
            if f"{enum}::{variant}" not in listed:
                faults.append(f"{enum}::{variant} stands in no row of docs/RULES.md")
    return len(listed)


def main():
    program = os.path.abspath(sys.argv[1]) if len(sys.argv) > 1 else PROGRAM
    if not os.access(program, os.X_OK):
        sys.exit(f"rules: there is no program {program}; `rt run` in crates/widl_cli builds it")
    faults = []
    examples = run_rules(program, faults)
    identifiers = compare_names(faults)
    for fault in faults:
        print(f"rules: {fault}")
    if faults:
        sys.exit(1)
    print(f"rules: {examples} examples, {identifiers} identifiers agree")


if __name__ == "__main__":
    main()
