#!/usr/bin/env python3
"""Prints a valid Web IDL file of about the given number of bytes, in the manner of the files of the web platform.

    python3 bench/make_idl.py BYTES [SEED]

Interfaces with attributes, operations, constants and iterables, mixins, namespaces, dictionaries, enumerations,
typedefs and callbacks, with comments and extended attributes. Every name is defined before it is used, and no
rule of merging or validity is broken. The same arguments give the same bytes; two seeds give files whose names
are told apart by a number, so that they can be read together.
"""
import random
import sys

NOUNS = """Animation Audio Background Blob Buffer Cache Canvas Channel Client Clipboard Connection Context Cookie
Credential Database Device Document Element Encoder Entry Event Federated File Font Frame Gamepad Geometry Handle
Image Index Input Key Layout Lock Media Message Navigation Node Notification Observer Offscreen Option Payment
Performance Permission Pointer Position Presentation Progress Quota Range Record Rect Report Request Resource
Response Rule Screen Selection Sensor Service Session Shadow Source Storage Stream Style Text Timeline Touch
Track Transform Transport Tree Value Video View Wake Window Worker Writable""".split()
VERBS = "add append cancel clear close commit create delete find get has insert load lock match move notify observe open post prepend put read register release remove replace request reset resolve restore save scroll select send set start stop sync toggle transfer update watch write".split()
INTEGERS = ["byte", "octet", "short", "unsigned short", "long", "unsigned long", "long long", "unsigned long long"]
TEXTS = ["DOMString", "USVString", "ByteString"]
LISTS = ["[NewObject]", "[SameObject]", "[CEReactions]", "[SecureContext]", "[Exposed=(Window,Worker), CEReactions]"]


class Maker:
    def __init__(self, seed):
        self.random = random.Random(seed)
        self.seed = seed
        self.count = 0
        self.interfaces = []
        self.parents = []
        self.dictionaries = []
        self.enumerations = []
        self.typedefs = []
        self.callbacks = []

    def pick(self, items):
        return self.random.choice(items)

    def chance(self, share):
        return self.random.random() < share

    def name(self):
        """A name of a definition, unlike all others of all seeds."""
        self.count += 1
        return f"{self.pick(NOUNS)}{self.pick(NOUNS)}{self.seed}x{self.count}"

    def member(self, used):
        """A name of a member, unlike those that are used, also in capitals."""
        while True:
            first = self.pick(VERBS if self.chance(0.5) else NOUNS).lower()
            made = first + self.pick(NOUNS) + (self.pick(NOUNS) if self.chance(0.3) else "")
            if made.lower() not in used:
                used.add(made.lower())
                return made

    def plain(self):
        """A type that an attribute may have, without a question mark."""
        roll = self.random.random()
        if roll < 0.12:
            return "boolean"
        if roll < 0.38:
            return self.pick(INTEGERS)
        if roll < 0.62:
            return self.pick(TEXTS)
        named = self.pick([self.interfaces, self.interfaces, self.enumerations, self.typedefs])
        return self.pick(named) if named else "DOMString"

    def nullable(self, made):
        return made + "?" if self.chance(0.15) else made

    def type(self):
        """A type that an argument or a result may have."""
        roll = self.random.random()
        if roll < 0.80:
            return self.nullable(self.plain())
        if roll < 0.90:
            return f"sequence<{self.nullable(self.plain())}>"
        if roll < 0.94:
            return f"record<DOMString, {self.plain()}>"
        if roll < 0.97 and self.callbacks:
            return self.pick(self.callbacks)
        return self.pick(["(DOMString or unsigned long)", "(boolean or USVString)", "(sequence<long> or DOMString)"])

    def list(self, share):
        return self.pick(LISTS) + " " if self.chance(share) else ""

    def arguments(self):
        made, used = [], set()
        for _ in range(self.random.randrange(4)):
            optional = "optional " if self.chance(0.3) or (made and made[-1].startswith("optional")) else ""
            made.append(f"{optional}{self.type()} {self.member(used)}")
        if self.dictionaries and self.chance(0.2):
            made.append(f"optional {self.pick(self.dictionaries)} {self.member(used)} = {{}}")
        return ", ".join(made)

    def comment(self):
        words = lambda count: " ".join(self.pick(NOUNS).lower() for _ in range(count))
        roll = self.random.random()
        if roll < 0.06:
            return f"  // {words(self.random.randrange(3, 12))}\n"
        if roll < 0.08:
            return "  /* " + "\n   * ".join(words(9) for _ in range(3)) + " */\n"
        return ""

    def result(self):
        roll = self.random.random()
        if roll < 0.40:
            return "undefined"
        return f"Promise<{self.pick(['undefined', self.type()])}>" if roll < 0.55 else self.type()

    def entry(self, used):
        """A member of an interface or a mixin."""
        roll = self.random.random()
        if roll < 0.47:
            word = self.pick(["readonly attribute", "readonly attribute", "attribute"])
            return f"  {self.list(0.2)}{word} {self.nullable(self.plain())} {self.member(used)};\n"
        if roll < 0.93:
            return f"  {self.list(0.2)}{self.result()} {self.member(used)}({self.arguments()});\n"
        value = self.pick(["0", "1", "2", "4", "8", "0x10", "255", "0x7FFF"])
        return f"  const unsigned short {self.member(used).upper()} = {value};\n"

    def body(self, fewest, most):
        used = set()
        return "".join(self.comment() + self.entry(used) for _ in range(self.random.randrange(fewest, most)))

    def interface(self):
        parent = f" : {self.pick(self.parents)}" if self.parents and self.chance(0.5) else ""
        constructor = f"  constructor({self.arguments()});\n" if self.chance(0.3) else ""
        body = self.body(3, 16)
        iterable = f"  iterable<DOMString, {self.plain()}>;\n" if not parent and self.chance(0.15) else ""
        name = self.name()
        self.interfaces.append(name)
        if not iterable:
            self.parents.append(name)
        return f"[Exposed=Window]\ninterface {name}{parent} {{\n{constructor}{body}{iterable}}};\n\n"

    def dictionary(self):
        used, lines = set(), []
        for _ in range(self.random.randrange(1, 9)):
            made, default = self.pick(
                [
                    ("boolean", self.pick(["true", "false"])),
                    (self.pick(INTEGERS), self.pick(["0", "1", "0x7F"])),
                    (self.pick(TEXTS), '"' + self.pick(NOUNS).lower() + '"'),
                    (f"sequence<{self.plain()}>", "[]"),
                    (f"{self.plain()}?", "null"),
                    (self.type(), None),
                ]
            )
            lines.append(f"  {made} {self.member(used)}{'' if default is None else ' = ' + default};\n")
        name = self.name()
        self.dictionaries.append(name)
        return f"dictionary {name} {{\n{''.join(lines)}}};\n\n"

    def enumeration(self):
        used = set()
        values = ",\n".join(f'  "{self.member(used).lower()}"' for _ in range(self.random.randrange(2, 9)))
        name = self.name()
        self.enumerations.append(name)
        return f"enum {name} {{\n{values}\n}};\n\n"

    def typedef(self):
        made = self.pick(INTEGERS + TEXTS)
        name = self.name()
        self.typedefs.append(name)
        return f"typedef {self.pick(['[Clamp] ', '[EnforceRange] ', '']) if made in INTEGERS else ''}{made} {name};\n\n"

    def callback(self):
        made = f"{self.pick(['undefined', self.type()])} ({self.arguments()})"
        name = self.name()
        self.callbacks.append(name)
        return f"callback {name} = {made};\n\n"

    def mixin(self):
        """A mixin and an interface of its own that includes it."""
        body = self.body(2, 7)
        mixin, host = self.name(), self.name()
        self.interfaces.append(host)
        return f"interface mixin {mixin} {{\n{body}}};\ninterface {host} {{}};\n{host} includes {mixin};\n\n"

    def namespace(self):
        used = set()
        lines = "".join(f"  {self.result()} {self.member(used)}({self.arguments()});\n" for _ in range(self.random.randrange(1, 6)))
        return f"[Exposed=*]\nnamespace {self.name()} {{\n{lines}}};\n\n"

    def definition(self):
        makers = [self.interface, self.dictionary, self.enumeration, self.typedef, self.callback, self.mixin, self.namespace]
        return self.random.choices(makers, [50, 21, 10, 7, 4, 5, 3])[0]()


def main():
    size = int(sys.argv[1])
    maker = Maker(int(sys.argv[2]) if len(sys.argv) > 2 else 1)
    parts, length = [], 0
    while length < size:
        part = maker.definition()
        parts.append(part)
        length += len(part)
    sys.stdout.write("".join(parts))


if __name__ == "__main__":
    main()
