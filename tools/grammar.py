#!/usr/bin/env python3
"""Writes the generated files of crates/widl_grammar: the rows of the grammar with their tables, and the
printed grammar that they are compared with.

    python3 tools/grammar.py && (cd crates/widl_grammar && rt fmt)

`grammar.txt` has the rows, `printed.txt` the printed grammar, and `parts.txt` what each rule that only
the rows have stands for in the printed one. Nothing that is written here is trusted: the check of the
crate computes that the tables serve the rows, and that both grammars have the same sentences.
"""

import os
import re
import textwrap

from row_tables import HERE, NO_ROW, Rows, coded, constant, lines_of, symbol_text, variants, words_of

CRATE = os.path.join(HERE, "..", "crates", "widl_grammar")
START = "Definitions"
DEEP_LEVEL = 17
CLASSES = {"identifier": "Identifier", "integer": "Integer", "decimal": "Decimal", "string": "String"}
SIGNS = {
    '"="': "Equals", '"("': "OpenParen", '")"': "CloseParen", '";"': "Semicolon", '"{"': "OpenBrace",
    '"}"': "CloseBrace", '","': "Comma", '":"': "Colon", '"<"': "Less", '">"': "Greater",
    '"..."': "Ellipsis", '"["': "OpenBracket", '"]"': "CloseBracket", '"?"': "Question",
    '"*"': "Asterisk", '"-Infinity"': "MinusInfinity", '"NaN"': "Nan", '"DOMString"': "DomString",
    '"USVString"': "UsvString",
}


class Printed:
    """The printed grammar, as expressions: tuples of a word and its parts."""

    def __init__(self, rows):
        self.rows = rows
        self.rules = {}
        for line in lines_of("printed.txt"):
            name, text = (part.strip() for part in line.split("=", 1))
            self.rules[name] = words_of(text)
        self.rules = {name: self.parse(words) for name, words in self.rules.items()}
        self.parts = {}
        for line in lines_of("parts.txt"):
            name, text = (part.strip() for part in line.split("=", 1))
            self.parts[name] = self.parse(words_of(text))
        self.inlined = [n for n in self.rules if n not in rows.rows or n in self.parts]
        self.parts = {n: self.expand(e) for n, e in self.parts.items()}
        self.find_ranks()
        missing = [n for n in rows.rules if n not in self.parts and n not in self.rules]
        assert not missing, missing

    def find_ranks(self):
        self.ranks = {n: 0 for n in self.rows.rules}
        changed = True
        while changed:
            changed = False
            for name in self.rows.rules:
                for row in self.rows.rows[name]:
                    for symbol in row:
                        plain = symbol.lstrip("^")
                        if plain in self.parts and self.ranks[plain] >= self.ranks[name]:
                            self.ranks[name], changed = self.ranks[plain] + 1, True
                            assert self.ranks[name] < 16, name
                        if not self.rows.is_rule(symbol) or plain not in self.rows.nullable:
                            break

    def parse(self, words):
        expression, rest = self.choice(words)
        assert not rest, rest
        return expression

    def choice(self, words):
        parts = []
        while True:
            sequence, words = self.sequence(words)
            parts.append(sequence)
            if not words or words[0] != "|":
                break
            words = words[1:]
        return (("choice", parts) if len(parts) > 1 else parts[0]), words

    def sequence(self, words):
        parts = []
        while words and words[0] not in "|)]}":
            word, words = words[0], words[1:]
            if word in "([{":
                inside, words = self.choice(words)
                words = words[1:]
                parts.append({"(": inside, "[": ("maybe", inside), "{": ("many", inside)}[word])
            elif word in CLASSES or word.startswith('"'):
                assert word in self.rows.terminals, word
                parts.append(("token", word))
            else:
                parts.append(("rule", word))
        return (("sequence", parts) if len(parts) > 1 else parts[0]), words

    def expand(self, expression):
        kind, inside = expression
        if kind in ("choice", "sequence"):
            return kind, [self.expand(part) for part in inside]
        if kind in ("maybe", "many"):
            return kind, self.expand(inside)
        if kind == "rule" and inside in self.inlined:
            return self.rules[inside]
        return expression

    def text(self, expression, outer=0):
        kind, inside = expression
        if kind == "token":
            return "token word." + self.rows.terminal[inside]
        if kind == "rule":
            return "rule " + inside
        if kind in ("maybe", "many"):
            return f"{kind} ({self.text(inside)})"
        level, sign = (1, " ∣ ") if kind == "choice" else (2, " · ")
        text = sign.join(self.text(part, level) for part in inside)
        return f"({text})" if outer >= level else text


def write(path, text):
    path = os.path.join(CRATE, path)
    os.makedirs(os.path.dirname(path), exist_ok=True)
    mark = "//" if path.endswith(".rt") else "--"
    with open(path, "w") as file:
        file.write(f"{mark} generated by tools/grammar.py; do not edit\n{text}")




def write_enums(rows):
    write("src/terminal.rt", f"""//! The terminals of the grammar.

/// A token as the grammar sees it: one of the words and signs that the grammar quotes, or the class
/// of any other token ([Web IDL, IDL grammar](https://webidl.spec.whatwg.org/#idl-grammar)).
/// [`Terminal::Other`] is a token that no sentence has.
#[derive(Clone, Copy, Debug, PartialEq, Eq)]
pub enum Terminal {{
{"".join(f"    {rows.terminal[s]},{chr(10)}" for s in rows.terminals)}}}
""")
    write("src/rule.rt", f"""//! The rules of the left-factored grammar.

/// A rule of the grammar of Web IDL ([Web IDL, IDL grammar](https://webidl.spec.whatwg.org/#idl-grammar)),
/// left-factored, so that the token ahead tells the row.
#[derive(Clone, Copy, Debug, PartialEq, Eq)]
pub enum Rule {{
{"".join(f"    {n},{chr(10)}" for n in rows.rules)}}}
""")


def quoted(rows):
    return sorted((s for s in rows.terminals if s.startswith('"')), key=lambda s: s.strip('"'))


def write_words(rows):
    words = quoted(rows)
    write("src/spelling.rt", f"""//! The words and signs that the grammar quotes.

use crate::Terminal;

/// The terminals that are quoted words and signs, in the order of their spellings.
pub static QUOTED: [Terminal; {len(words)}] = [{", ".join("Terminal::" + rows.terminal[s] for s in words)}];

/// How each of them is spelled, in the same order.
pub static SPELLINGS: [&[u8]; {len(words)}] = [{", ".join("b" + s for s in words)}];

/// How many of them begin with a lower byte than this one.
pub static QUOTED_FROM: [u8; 257] = [{", ".join(str(sum(ord(s[1]) < b for s in words)) for b in range(257))}];
""")
    names = [rows.terminal[s] for s in words]
    cases = "".join(f"spelling {rows.terminal[s]} = Some (codes {s})\n" for s in words)
    write("specs/Words.antt", f"""-- The words and signs that the grammar quotes.
use Rattle.std.specs.Prelude.{{ℕ, Bool, false, Option, Some, None, List, [], ◌∷◌, ◌+◌, find, codes, slice_range, slice_index}}
use Rattle.std.specs.Str.{{bytes_eq}}
use Rattle.widl_grammar.specs.declared.terminal.Terminal.{{Terminal}}
use Rattle.widl_grammar.specs.declared.terminal.Terminal.TheVariants.{variants(names)}
use Rattle.widl_grammar.specs.declared.spelling.TheConstants.{{QUOTED, QUOTED_FROM}}

-- the bytes of a quoted terminal
abbrev pub spelling : Terminal → Option (List ℕ)
{cases}spelling _ = None

abbrev pub is_spelled : Option (List ℕ) → List ℕ → Bool
is_spelled None text = false
is_spelled (Some x) text = bytes_eq x text

-- the one of the terminals that is spelled so
abbrev pub quoted_among : List Terminal → List ℕ → Option Terminal
quoted_among terminals text = find (λ t. is_spelled (spelling t) text) terminals

-- the terminals whose spellings begin with the byte
abbrev pub beginning : ℕ → List Terminal
beginning byte = slice_range QUOTED (slice_index QUOTED_FROM byte) (slice_index QUOTED_FROM (byte + 1))

-- the terminal that is spelled so
abbrev pub quoted : List ℕ → Option Terminal
quoted [] = None
quoted (byte ∷ more) = quoted_among (beginning byte) (byte ∷ more)
""")
    cases = "".join(f"quoted_is {n} text e = subst (λ x. quoted x ≡ Some {n}) (told e) refl\n" for n in names)
    write("proofs/Spellings.antt", f"""-- Each quoted terminal is the one that is spelled so.
use Rattle.std.proofs.Common.{{◌≡◌, ℕ, Some, List, refl, subst}}
use Rattle.widl_grammar.specs.declared.terminal.Terminal.{{Terminal}}
use Rattle.widl_grammar.specs.declared.terminal.Terminal.TheVariants.{variants(names)}
use Rattle.widl_grammar.specs.Words.{{spelling, quoted}}

told : {{X : Type 0}} {{x y : X}} → Some x ≡ Some y → x ≡ y
told e = cc

pub quoted_is : (t : Terminal) (text : List ℕ) → spelling t ≡ Some text → quoted text ≡ Some t
{cases}quoted_is _ text e = cc
""")


def write_rows(rows):
    for group, names in rows.groups:
        used = {word for n in names for row in rows.rows[n] for word in (
            "Inner" if s.startswith("^") else "Part" if rows.is_rule(s) else "Token" for s in row)}
        constants = []
        for name in names:
            lines = "".join(
                "    &[" + ", ".join(symbol_text(rows, s) for s in row) + "],\n" for row in rows.rows[name])
            constants.append(f"pub const {constant(name)}: &[&[Symbol<Terminal, Rule>]] = &[\n{lines}];\n")
        write(f"src/rows/{group}.rt", f"""//! The rows of the rules of {group}.

use crate::{{Rule, Terminal}};
use widl_predictive::Symbol;
use widl_predictive::Symbol::{{{", ".join(sorted(used))}}};

""" + "\n".join(constants))
        constants = []
        for name in names:
            numbers = ", ".join(map(str, rows.picks[name]))
            constants.append(f"pub const {constant(name)}_PICKS: [u8; {rows.end + 1}] = [{numbers}];\n")
        write(f"src/picks/{group}.rt", f"""//! For each rule of {group} the number of the row that each terminal picks, and last the one that the
//! end picks; {NO_ROW} where no row may stand.

""" + "\n".join(constants))


def write_tables(rows):
    pairs = [(group, n) for group, names in rows.groups for n in names]
    groups = ", ".join(sorted(group for group, _ in rows.groups))
    arms = "".join(f"        Rule::{n} => {group}::{constant(n)},\n" for group, n in pairs)
    write("src/rows/all.rt", f"""//! The rows of all rules.

ghost use Rattle.std.specs.Prelude.{{◌≡◌, map}};
ghost use Rattle.widl_grammar.specs.Rows.{{rows_of}};

use super::{{{groups}}};
use crate::{{Rule, Terminal}};
use widl_predictive::Symbol;

/// The rows of a rule, one for each alternative.
pub fn rows(rule: Rule) -> &'static [&'static [Symbol<Terminal, Rule>]]
    ensures {{ map (λ row. row.now) result.now ≡ rows_of rule }}
{{
    match rule {{
{arms}    }}
}}
""")
    arms = "".join(f"        Rule::{n} => &{group}::{constant(n)}_PICKS,\n" for group, n in pairs)
    write("src/picks/all.rt", f"""//! The tables of all rules.

ghost use Rattle.std.specs.Prelude.{{◌≡◌}};
ghost use Rattle.widl_grammar.specs.Tables.{{picks_of}};

use super::{{{groups}}};
use crate::Rule;

/// For each terminal, in the order of [`Terminal`](crate::Terminal), and last for the end, the number of
/// the row that it picks; {NO_ROW} where no row may stand.
pub fn picks(rule: Rule) -> &'static [u8; {rows.end + 1}]
    ensures {{ result.now ≡ picks_of rule }}
{{
    match rule {{
{arms}    }}
}}
""")


def write_specs(rows):
    rule_use = (
        "use Rattle.widl_grammar.specs.declared.rule.Rule.{Rule}\n"
        f"use Rattle.widl_grammar.specs.declared.rule.Rule.TheVariants.{variants(rows.rules)}\n")
    terminal_use = (
        "use Rattle.widl_grammar.specs.declared.terminal.Terminal.{Terminal}\n"
        "use Rattle.widl_grammar.specs.declared.terminal.Terminal.TheVariants."
        f"{variants(rows.terminal[s] for s in rows.terminals)}\n")

    def cases(name, type_, value, of=rows.rules):
        return f"abbrev pub {name} : {type_}\n" + "".join(f"{name} {n} = {value(n)}\n" for n in of)

    terminals = [rows.terminal[s] for s in rows.terminals]
    write("specs/Terminals.antt", f"""-- The terminals by their numbers.
use Rattle.std.specs.Prelude.{{◌≡◌, ◌<◌, ℕ, Option, Some, None, List, [], ◌∷◌, length, get_or, refl}}
use Rattle.std.proofs.Common.{{lit<}}
use Rattle.widl_predictive.specs.Coded.{{Coded}}
{terminal_use}
{coded("Terminal", "terminal", "t", terminals, "abbrev pub")}
-- the column of the tables for what is ahead
abbrev pub column : Option Terminal → ℕ
column None = {rows.end}
column (Some t) = terminal_code t
""")
    number = {n: i for i, n in enumerate(rows.rules)}
    write("specs/Rules.antt", f"""-- The rules by their numbers.
use Rattle.std.specs.Prelude.{{◌≡◌, ◌<◌, ℕ, List, [], ◌∷◌, length, get_or, refl}}
use Rattle.std.proofs.Common.{{lit<}}
use Rattle.widl_predictive.specs.Coded.{{Coded}}
{rule_use}
abbrev pub all_rules : List Rule
all_rules = {" ∷ ".join(rows.rules)} ∷ []

{cases("rule_code", "Rule → ℕ", lambda n: number[n])}
pub rule_at : (r d : Rule) → get_or all_rules (rule_code r) d ≡ r
{"".join(f"rule_at {n} d = refl{chr(10)}" for n in rows.rules)}
pub rule_below : (r : Rule) → rule_code r < length all_rules
{"".join(f"rule_below {n} = lit< tt{chr(10)}" for n in rows.rules)}
abbrev pub rules : Coded Rule
rules = record {{ all = all_rules; code = rule_code; at = rule_at; below = rule_below }}
""")
    uses = "".join(
        f"use Rattle.widl_grammar.specs.declared.rows.{group}.TheConstants."
        f"{variants(map(constant, names))}\n" for group, names in rows.groups)
    pick_uses = "".join(
        f"use Rattle.widl_grammar.specs.declared.picks.{group}.TheConstants."
        f"{variants(constant(n) + '_PICKS' for n in names)}\n" for group, names in rows.groups)
    write("specs/Rows.antt", f"""-- The grammar, as the constants of the source have it.
use Rattle.std.specs.Prelude.{{List, [], ◌∷◌, Bool, true, false}}
{rule_use}use Rattle.widl_grammar.specs.declared.terminal.Terminal.{{Terminal}}
use Rattle.widl_predictive.specs.declared.grammar.Symbol.{{Symbol}}
use Rattle.widl_predictive.specs.Grammar.{{Grammar}}
{uses}
-- the rows behind their references
abbrev pub nows : List record {{ now : List (Symbol Terminal Rule) }} → List (List (Symbol Terminal Rule))
nows [] = []
nows (a ∷ more) = a.now ∷ nows more

{cases("rows_of", "Rule → List (List (Symbol Terminal Rule))", lambda n: f"nows {constant(n)}.now")}
-- a whole file is `Definitions`
abbrev pub is_start : Rule → Bool
is_start {START} = true
is_start _ = false

-- the rules that begin a type
abbrev pub begins_type : Rule → Bool
{"".join(f"begins_type {n} = true{chr(10)}" for n in rows.begins)}begins_type _ = false

-- a type of level {DEEP_LEVEL} is too deep
abbrev pub grammar : Grammar Terminal Rule
grammar = record {{ rows = rows_of; starts = is_start; begins_level = begins_type; deep_level = {DEEP_LEVEL} }}
""")
    write("specs/Tables.antt", f"""-- The tables of the grammar. `Owed` computes that they serve.
use Rattle.std.specs.Prelude.{{List, ℕ, Bool, true, false, Option, slice_index_or}}
{rule_use}use Rattle.widl_grammar.specs.declared.terminal.Terminal.{{Terminal}}
{pick_uses}use Rattle.widl_grammar.specs.Terminals.{{terminals, column}}
use Rattle.widl_grammar.specs.Rules.{{rules}}
use Rattle.widl_grammar.specs.Rows.{{grammar}}
use Rattle.widl_predictive.specs.Lookahead.{{Sets}}
use Rattle.widl_predictive.specs.Table.{{Table, sets_of}}

{cases("picks_of", "Rule → List ℕ", lambda n: constant(n) + "_PICKS")}
-- the number of the row that what is ahead picks
abbrev pub picked : Rule → Option Terminal → ℕ
picked r l = slice_index_or (picks_of r) (column l) 0

-- what a rule may begin with, a bit for each terminal
{cases("first_set", "Rule → ℕ", lambda n: rows.bits(rows.first[n]))}
-- what may follow a rule, with a bit for the end
{cases("follow_set", "Rule → ℕ", lambda n: rows.bits(rows.follow[n]))}
{cases("nullable", "Rule → Bool", lambda n: "true" if n in rows.nullable else "false")}
-- the row `shortest` of a rule has rules of lower ranks alone
{cases("rank", "Rule → ℕ", lambda n: rows.rank[n])}
{cases("shortest", "Rule → ℕ", lambda n: rows.shortest[n])}
{cases("cost", "Rule → ℕ", lambda n: rows.cost[n])}
abbrev pub table : Table Terminal Rule
table = record {{
  grammar = grammar;
  terminals = terminals;
  rules = rules;
  picks = picks_of;
  first_set = first_set;
  follow_set = follow_set;
  nullable_of = nullable;
  rank_of = rank;
  shortest_of = shortest;
  cost_of = cost;
}}

abbrev pub sets : Sets Terminal Rule
sets = sets_of table
""")


def wrapped(text):
    joined = re.sub(r"\b(token|rule|maybe|many) ", "\\1~", text)
    lines = textwrap.wrap(joined, 110, subsequent_indent="      ", break_long_words=False)
    return "\n".join(lines).replace("~", " ") + "\n"


def equation(printed, name, subject, expression):
    kind, inside = expression
    if kind != "choice":
        return wrapped(f"{subject} {name} = {printed.text(expression)}")
    first, *others = (printed.text(part, 1) for part in inside)
    return wrapped(f"{subject} {name} = {first}") + "".join(wrapped(f"    ∣ {part}") for part in others)


def write_printed(rows, printed):
    names = list(printed.rules)
    terminal_use = (
        "use Rattle.widl_grammar.specs.declared.terminal.Terminal.{Terminal}\n"
        "use Rattle.widl_grammar.specs.declared.terminal.Terminal.TheVariants as word\n")
    write("specs/Printed.antt", f"""-- The grammar of Web IDL as it is printed, with choices, options and repetitions.
use Rattle.std.specs.Prelude.{{List}}
{terminal_use}use Rattle.widl_predictive.specs.Expression.{{Expression, token, rule, ◌·◌, ◌∣◌, maybe, many, Spells}}

pub data Nonterminal : Type 0 where
{"".join(f"  {n} : Nonterminal{chr(10)}" for n in names)}
abbrev pub printed : Nonterminal → Expression Terminal Nonterminal
{"".join(equation(printed, n, "printed", e) for n, e in printed.rules.items())}
-- a file of Web IDL
abbrev pub PrintedSentence : List Terminal → Type 0
PrintedSentence w = Spells printed (rule {START}) w
""")
    write("proofs/Names.antt", f"""-- The printed rules by their numbers.
use Rattle.std.proofs.Common.{{◌≡◌, ◌<◌, ℕ, List, [], ◌∷◌, length, get_or, refl, lit<}}
use Rattle.widl_predictive.specs.Coded.{{Coded}}
use Rattle.widl_grammar.specs.Printed.{variants(["Nonterminal"] + names)}

{coded("Nonterminal", "name", "p", names, "abbrev")}""")
    ruled = [n for n in names if n not in printed.inlined]
    parted = [n for n in rows.rules if n not in ruled]
    part = "".join(equation(printed, n, "part", printed.parts[n]) for n in parted)
    write("proofs/Parts.antt", f"""-- What the rules stand for that the printed grammar lacks.
{terminal_use}use Rattle.widl_grammar.specs.declared.rule.Rule.{{Rule}}
use Rattle.widl_grammar.specs.declared.rule.Rule.TheVariants.{variants(parted)}
use Rattle.widl_grammar.specs.Printed.{{Nonterminal}}
use Rattle.widl_grammar.specs.Printed as printing
use Rattle.widl_predictive.specs.Expression.{{Expression, token, rule, ◌·◌, ◌∣◌, maybe, many}}

-- of the rules that the printed grammar has nothing is asked
abbrev pub part : Rule → Expression Terminal Nonterminal
{part.replace("rule ", "rule printing.")}part _ = token word.Other
""")
    ranked = [n for n in rows.rules if printed.ranks[n]]
    write("proofs/Ranks.antt", f"""-- An order of the rules.
use Rattle.std.proofs.Common.{{ℕ}}
use Rattle.widl_grammar.specs.declared.rule.Rule.{{Rule}}
use Rattle.widl_grammar.specs.declared.rule.Rule.TheVariants.{variants(ranked)}

-- a rule that the printed grammar lacks is below those in whose rows it stands where nothing before it takes
-- a token
abbrev pub rank : Rule → ℕ
{"".join(f"rank {n} = {printed.ranks[n]}{chr(10)}" for n in ranked)}rank _ = 0
""")
    write("proofs/Prints.antt", f"""-- The rules that both grammars have.
use Rattle.std.proofs.Common.{{Option, Some, None}}
use Rattle.widl_grammar.specs.declared.rule.Rule.{{Rule}}
use Rattle.widl_grammar.specs.declared.rule.Rule.TheVariants.{variants(ruled)}
use Rattle.widl_grammar.specs.Printed.{{Nonterminal}}
use Rattle.widl_grammar.specs.Printed as printing

abbrev pub prints : Rule → Option Nonterminal
{"".join(f"prints {n} = Some printing.{n}{chr(10)}" for n in ruled)}prints _ = None
""")
    write("proofs/RuleOf.antt", f"""-- The rules that both grammars have.
use Rattle.std.proofs.Common.{{Option, Some, None}}
use Rattle.widl_grammar.specs.declared.rule.Rule.{{Rule}}
use Rattle.widl_grammar.specs.declared.rule.Rule.TheVariants as row
use Rattle.widl_grammar.specs.Printed.{variants(["Nonterminal"] + ruled)}

-- none where the printed rule is put in place of its name
abbrev pub rule_of : Nonterminal → Option Rule
{"".join(f"rule_of {n} = Some row.{n}{chr(10)}" for n in ruled)}rule_of _ = None
""")


def main():
    rows = Rows("grammar.txt", [START], CLASSES, SIGNS, "other")
    printed = Printed(rows)
    write_enums(rows)
    write_words(rows)
    write_rows(rows)
    write_tables(rows)
    write_specs(rows)
    write_printed(rows, printed)
    print(len(rows.rules), "rules,", sum(map(len, rows.rows.values())), "rows,", len(rows.terminals), "terminals")
    print("inlined:", printed.inlined)


if __name__ == "__main__":
    main()
