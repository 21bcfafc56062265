"""Rows of a left-factored grammar, with the sets and tables that make it predictive, and what the scripts
that write them to a crate share.

A file of rows has one rule a line, its rows apart by `|`, and a line `[name]` before each group of rules.
`%` is the empty row. A quoted word or sign is a terminal, and so is each class. `^` marks a part that lies
one level further in, `!` a rule that begins a level.
"""

import os
import re

HERE = os.path.dirname(os.path.abspath(__file__))
NO_ROW = 99


def lines_of(name):
    with open(os.path.join(HERE, name)) as file:
        return [line.strip() for line in file if line.strip() and not line.startswith("#")]


def words_of(text):
    return re.findall(r'"[^"]*"|\^?\w+|[%|{}()\[\]]', text)


class Rows:
    """The left-factored grammar, with the sets and tables that make it predictive."""

    def __init__(self, file, starts, classes, signs, unknown):
        """`signs` names the terminals that aren't spelled by letters alone, `unknown` the one of no row."""
        self.starts, self.classes, self.signs, self.unknown = starts, classes, signs, unknown
        self.groups, self.rows, self.begins = [], {}, []
        for line in lines_of(file):
            if line.startswith("["):
                self.groups.append((line.strip("[]"), []))
                continue
            name, text = (part.strip() for part in line.split("=", 1))
            if name.startswith("!"):
                name = name[1:]
                self.begins.append(name)
            self.groups[-1][1].append(name)
            self.rows[name] = [[]]
            for word in words_of(text):
                if word == "|":
                    self.rows[name].append([])
                elif word != "%":
                    self.rows[name][-1].append(word)
        self.rules = list(self.rows)
        self.find_terminals()
        self.find_sets()
        self.find_picks()
        self.find_ranks()
        self.find_costs()

    def terminal_name(self, symbol):
        if symbol in self.classes:
            return self.classes[symbol]
        if symbol in self.signs:
            return self.signs[symbol]
        return "".join(part[0].upper() + part[1:] for part in symbol.strip('"').split("_"))

    def is_rule(self, symbol):
        return symbol.lstrip("^") in self.rows

    def find_terminals(self):
        found = []
        for rows in self.rows.values():
            for row in rows:
                found += [s for s in row if not self.is_rule(s) and s not in found]
        assert all(s in self.classes or s.startswith('"') for s in found), found
        words = [s for s in found if s.startswith('"') and s[1].isalpha()]
        signs = [s for s in found if s.startswith('"') and not s[1].isalpha()]
        self.terminals = list(self.classes) + signs + sorted(words, key=self.terminal_name) + [self.unknown]
        self.terminal = {s: self.terminal_name(s) for s in self.terminals}
        self.bit = {s: i for i, s in enumerate(self.terminals)}
        self.end = len(self.terminals)
        self.bit["end"] = self.end

    def first_of(self, row):
        found = set()
        for symbol in row:
            if not self.is_rule(symbol):
                return found | {symbol}, False
            found |= self.first[symbol.lstrip("^")]
            if symbol.lstrip("^") not in self.nullable:
                return found, False
        return found, True

    def find_sets(self):
        self.nullable = set()
        self.first = {n: set() for n in self.rules}
        self.follow = {n: set() for n in self.rules}
        for start in self.starts:
            self.follow[start].add("end")
        before = None
        while before != (before := self.size()):
            for name in self.rules:
                for row in self.rows[name]:
                    found, empty = self.first_of(row)
                    self.first[name] |= found
                    if empty:
                        self.nullable.add(name)
                    for i, symbol in enumerate(row):
                        if self.is_rule(symbol):
                            found, empty = self.first_of(row[i + 1:])
                            self.follow[symbol.lstrip("^")] |= found | (self.follow[name] if empty else set())

    def size(self):
        return sum(map(len, self.first.values())) + sum(map(len, self.follow.values())) + len(self.nullable)

    def find_picks(self):
        self.picks = {}
        for name in self.rules:
            row_of = [NO_ROW] * (self.end + 1)
            for number, row in enumerate(self.rows[name]):
                found, empty = self.first_of(row)
                for terminal in found | (self.follow[name] if empty else set()):
                    assert row_of[self.bit[terminal]] == NO_ROW, ("conflict", name, terminal)
                    row_of[self.bit[terminal]] = number
            self.picks[name] = row_of

    def find_ranks(self):
        """A row of each rule whose rules have lower ranks, so that each rule derives something."""
        self.rank, self.shortest = {}, {}
        rank = 0
        while len(self.rank) < len(self.rules):
            rank += 1
            new = {}
            for name in self.rules:
                for number, row in enumerate(self.rows[name]):
                    if name not in self.rank and name not in new:
                        if all(not self.is_rule(s) or s.lstrip("^") in self.rank for s in row):
                            new[name] = number
            assert new, "a rule derives nothing"
            for name, number in new.items():
                self.rank[name], self.shortest[name] = rank, number

    def find_costs(self):
        """More than what a rule's rows cost that are put on the stack before a token is wanted."""
        self.cost = {n: 0 for n in self.rules}
        changed = True
        while changed:
            changed = False
            for name in self.rules:
                cost = 1 + max(self.cost_of(row) for row in self.rows[name])
                if cost != self.cost[name]:
                    self.cost[name], changed = cost, True
                    assert cost < 10000, "left recursion"

    def cost_of(self, row):
        total = 0
        for symbol in row:
            if not self.is_rule(symbol):
                return total
            total += self.cost[symbol.lstrip("^")]
            if symbol.lstrip("^") not in self.nullable:
                return total
        return total

    def bits(self, found):
        return sum(1 << self.bit[s] for s in found)


def constant(name):
    return re.sub(r"(?<!^)(?=[A-Z])", "_", name).upper()


def symbol_text(rows, symbol):
    if symbol.startswith("^"):
        return f"Inner(Rule::{symbol[1:]})"
    if rows.is_rule(symbol):
        return f"Part(Rule::{symbol})"
    return f"Token(Terminal::{rows.terminal[symbol]})"


def variants(names):
    return "{" + ", ".join(names) + "}"


def coded(type_, one, case, names, keyword):
    """The cases of a type by their numbers, both ways: `keyword` is how the list and the code are declared."""
    def each(line):
        return "".join(line(n, i) + "\n" for i, n in enumerate(names))

    return f"""{keyword} all_{one}s : List {type_}
all_{one}s = {" ∷ ".join(names)} ∷ []

{keyword} {one}_code : {type_} → ℕ
{each(lambda n, i: f"{one}_code {n} = {i}")}
pub {one}_at : ({case} d : {type_}) → get_or all_{one}s ({one}_code {case}) d ≡ {case}
{each(lambda n, i: f"{one}_at {n} d = refl")}
pub {one}_below : ({case} : {type_}) → {one}_code {case} < length all_{one}s
{each(lambda n, i: f"{one}_below {n} = lit< tt")}
abbrev pub {one}s : Coded {type_}
{one}s = record {{ all = all_{one}s; code = {one}_code; at = {one}_at; below = {one}_below }}
"""
