#!/usr/bin/env python3
"""Writes the tables of the lexer from the patterns of the tokens.

Run at the top of the repository: `python3 tools/lexer_table.py`, then `rt fmt` in crates/widl_lex. It writes

    crates/widl_lex/src/tables.rt          the tables that the program reads
    crates/widl_lex/proofs/Labels.antt     what each state still wants, for each kind of piece
    crates/widl_lex/proofs/Utf8Table.antt  the same for the pattern of UTF-8, and which states may stand beside each other

Nothing of it is trusted: the checker computes that the tables follow the patterns of
crates/widl_lex/specs/Lexical.antt and specs/Utf8.antt, and hold the terminals of specs/Quoted.antt, of which
those below are a copy.
"""

NEVER, NOTHING = ("never",), ("nothing",)


def span(low, high):
    return ("range", low, high)


def in_row(*patterns):
    row = patterns[-1]
    for pattern in reversed(patterns[:-1]):
        row = ("cat", pattern, row)
    return row


def any_of(*patterns):
    either = patterns[-1]
    for pattern in reversed(patterns[:-1]):
        either = ("alt", pattern, either)
    return either


def word(text):
    return in_row(*(span(ord(c), ord(c)) for c in text))


def one_of(text):
    return any_of(*(span(ord(c), ord(c)) for c in text))


def star(pattern):
    return ("star", pattern)


def plus(pattern):
    return ("cat", pattern, star(pattern))


def optional(pattern):
    return ("alt", pattern, NOTHING)


# The patterns, as in specs/Lexical.antt and specs/Utf8.antt.
tail = span(0x80, 0xBF)
two_bytes = in_row(span(0xC2, 0xDF), tail)
three_bytes = any_of(
    in_row(span(0xE0, 0xE0), span(0xA0, 0xBF), tail),
    in_row(span(0xE1, 0xEC), tail, tail),
    in_row(span(0xED, 0xED), span(0x80, 0x9F), tail),
    in_row(span(0xEE, 0xEF), tail, tail),
)
four_bytes = any_of(
    in_row(span(0xF0, 0xF0), span(0x90, 0xBF), tail, tail),
    in_row(span(0xF1, 0xF3), tail, tail, tail),
    in_row(span(0xF4, 0xF4), span(0x80, 0x8F), tail, tail),
)
utf8_text = star(any_of(span(0x00, 0x7F), two_bytes, three_bytes, four_bytes))

digit = span(0x30, 0x39)
octal_digit = span(0x30, 0x37)
hexadecimal_digit = any_of(digit, span(0x41, 0x46), span(0x61, 0x66))
letter = any_of(span(0x41, 0x5A), span(0x61, 0x7A))
exponent = in_row(one_of("Ee"), optional(one_of("+-")), plus(digit))
fraction = any_of(in_row(plus(digit), word("."), star(digit)), in_row(star(digit), word("."), plus(digit)))

PATTERNS = {
    "Token Quoted": word("..."),
    "Token Integer": in_row(
        optional(word("-")),
        any_of(
            in_row(span(0x31, 0x39), star(digit)),
            in_row(word("0"), one_of("Xx"), plus(hexadecimal_digit)),
            in_row(word("0"), star(octal_digit)),
        ),
    ),
    "Token Decimal": in_row(
        optional(word("-")),
        any_of(in_row(fraction, optional(exponent)), in_row(plus(digit), exponent)),
    ),
    "Token Identifier": in_row(optional(one_of("_-")), letter, star(any_of(digit, letter, one_of("_-")))),
    "Token Text": in_row(word('"'), star(any_of(span(0x00, 0x21), span(0x23, 0xFF))), word('"')),
    "Token Other": any_of(
        span(0x00, 0x08),
        span(0x0B, 0x0C),
        span(0x0E, 0x1F),
        span(0x21, 0x2F),
        span(0x3A, 0x40),
        span(0x5B, 0x60),
        span(0x7B, 0x7F),
        two_bytes,
        three_bytes,
        four_bytes,
    ),
    "Gap": any_of(
        plus(one_of("\t\n\r ")),
        in_row(word("//"), star(any_of(span(0x00, 0x09), span(0x0B, 0xFF)))),
        in_row(
            word("/*"),
            star(
                any_of(
                    span(0x00, 0x29),
                    span(0x2B, 0xFF),
                    in_row(
                        plus(word("*")),
                        any_of(span(0x00, 0x29), span(0x2B, 0x2E), span(0x30, 0xFF)),
                    ),
                )
            ),
            plus(word("*")),
            word("/"),
        ),
    ),
}
KINDS = list(PATTERNS)

# The quoted terminals, as in specs/Quoted.antt.
QUOTED = sorted(
    """( ) * , ... : ; < = > ? [ ] { }
    -Infinity ArrayBuffer BigInt64Array BigUint64Array ByteString DOMString DataView Float16Array Float32Array
    Float64Array FrozenArray Infinity Int16Array Int32Array Int8Array NaN ObservableArray Promise
    SharedArrayBuffer USVString Uint16Array Uint32Array Uint8Array Uint8ClampedArray
    any async async_iterable async_sequence attribute bigint boolean byte callback const constructor deleter
    dictionary double enum false float getter includes inherit interface iterable long maplike mixin namespace
    null object octet optional or partial readonly record required sequence setlike setter short static
    stringifier symbol true typedef undefined unrestricted unsigned""".split()
)


# How many slots the quoted terminals are spread over: no two have the same.
SLOTS = 512


def slot(text):
    """The slot of a text, as `slot_of` of specs/Walk.antt has it."""
    return (text[0] + 11 * (text[len(text) // 3] + text[len(text) // 2])) % SLOTS


def quoted_at():
    """For each slot the place of its quoted terminal, or 0, as good as any, where it has none."""
    places = {slot(text.encode()): place for place, text in enumerate(QUOTED)}
    assert len(places) == len(QUOTED)
    return [places.get(number, 0) for number in range(SLOTS)]


def signs():
    """For each byte whether it is a quoted terminal by itself. With none of these does a longer piece begin."""
    return ["true" if chr(byte) in QUOTED else "false" for byte in range(256)]


def matches_empty(pattern):
    form = pattern[0]
    if form in ("never", "range"):
        return False
    if form in ("nothing", "star"):
        return True
    if form == "cat":
        return matches_empty(pattern[1]) and matches_empty(pattern[2])
    return matches_empty(pattern[1]) or matches_empty(pattern[2])


def cat(first, second):
    return NEVER if first == NEVER else second if first == NOTHING else ("cat", first, second)


def alt(left, right):
    return right if left == NEVER else left if right == NEVER else ("alt", left, right)


def after(byte, pattern):
    """What the pattern still wants after the byte, put together exactly as proofs/Derivative.antt does."""
    form = pattern[0]
    if form in ("never", "nothing"):
        return NEVER
    if form == "range":
        return NOTHING if pattern[1] <= byte <= pattern[2] else NEVER
    if form == "cat":
        front = cat(after(byte, pattern[1]), pattern[2])
        return alt(front, after(byte, pattern[2])) if matches_empty(pattern[1]) else front
    if form == "alt":
        return alt(after(byte, pattern[1]), after(byte, pattern[2]))
    return cat(after(byte, pattern[1]), pattern)


def automaton(start):
    """The states in the order in which they are found, and the state after each byte."""
    numbers, states, rows = {start: 0}, [start], []
    for state in states:
        row = []
        for byte in range(256):
            wanted = tuple(after(byte, pattern) for pattern in state)
            if wanted not in numbers:
                numbers[wanted] = len(states)
                states.append(wanted)
            row.append(numbers[wanted])
        rows.append(row)
    return states, rows


def classes_of(rows):
    """The class of each byte, and one byte of each class: bytes of a class lead to the same states."""
    known, classes, members = {}, [], []
    for byte in range(256):
        column = tuple(row[byte] for row in rows)
        if column not in known:
            known[column] = len(members)
            members.append(byte)
        classes.append(known[column])
    return classes, members


def term(pattern):
    form = pattern[0]
    if form == "never":
        return "Never"
    if form == "nothing":
        return "Nothing"
    if form == "range":
        return f"(Range {pattern[1]} {pattern[2]})"
    if form == "star":
        return f"(Star {term(pattern[1])})"
    return f"({'Cat' if form == 'cat' else 'Alt'} {term(pattern[1])} {term(pattern[2])})"


def rust_list(items):
    return "[" + ", ".join(map(str, items)) + "]"


def rust_kind(kind):
    if kind is None:
        return "None"
    return "Some(PieceKind::Gap)" if kind == "Gap" else f"Some(PieceKind::Token(TokenKind::{kind.split()[1]}))"


def antt_list(items, indent="    "):
    return f"\n{indent}" + f" ∷\n{indent}".join(items) + " ∷ []"


def examples(rows):
    """For each state a shortest text that leads to it, printed."""
    texts, order = {0: b""}, [0]
    for state in order:
        for byte in sorted(range(256), key=lambda b: (not 33 <= b < 127, b)):
            if rows[state][byte] not in texts:
                texts[rows[state][byte]] = texts[state] + bytes([byte])
                order.append(rows[state][byte])
    return ["".join(chr(b) if 33 <= b < 127 else f"<{b:02X}>" for b in texts[state]) for state in range(len(rows))]


def rust_rows(rows, members):
    """The rows of a table, each with its number and a text that leads to its state."""
    return "".join(
        f"    {rust_list(row[byte] for byte in members)}, // {number}: {text}".rstrip() + "\n"
        for number, (row, text) in enumerate(zip(rows, examples(rows)))
    )


def beside(rows, utf8_rows, utf8_dead, within_first):
    """For each state of UTF-8 the set of token states that can be reached together with it, as bits."""
    seen = {(0, 0)}
    pairs = [(0, 0)]
    for state, utf8_state in pairs:
        for byte in range(256):
            pair = (rows[state][byte], utf8_rows[utf8_state][byte])
            if pair[1] == utf8_dead or (within_first and pair[1] == 0) or pair in seen:
                continue
            seen.add(pair)
            pairs.append(pair)
    return [sum(1 << s for s, u in seen if u == k) for k in range(len(utf8_rows))]


def finish(utf8_rows, dead):
    """For each live state of UTF-8 some bytes that end the character."""
    ends = {0: []}
    while len(ends) < len(utf8_rows) - 1:
        for state, row in enumerate(utf8_rows):
            for byte in range(256):
                if state not in ends and row[byte] in ends and row[byte] != dead:
                    ends[state] = [byte] + ends[row[byte]]
    return [ends.get(state, []) for state in range(len(utf8_rows))]


def main():
    states, rows = automaton(tuple(PATTERNS[kind] for kind in KINDS))
    ends = []
    for state in states:
        found = [kind for kind, pattern in zip(KINDS, state) if matches_empty(pattern)]
        assert len(found) <= 1, found
        ends.append(found[0] if found else None)
    dead = states.index(tuple(NEVER for _ in KINDS))

    utf8_states, utf8_rows = automaton((utf8_text,))
    utf8_dead = utf8_states.index((NEVER,))
    utf8_classes, utf8_members = classes_of(utf8_rows)

    crate = "crates/widl_lex/"
    comment = rows[rows[0][ord("/")]][ord("*")]
    star_state = rows[comment][ord("*")]
    with open(crate + "src/tables.rt", "w") as out:
        out.write(
            f"""// generated by tools/lexer_table.py; do not edit
//! The tables of the longest match and of UTF-8; the checker computes that they follow the patterns.

use crate::token::{{PieceKind, TokenKind}};

/// How many states there are.
pub const STATES: usize = {len(states)};

/// The state in which no more bytes make a piece.
pub const DEAD: usize = {dead};

/// The state after each byte, for each state, which begins at 0. Beside each state stand its number and a text
/// that leads to it.
pub static NEXT: [[u8; 256]; STATES] = [
{rust_rows(rows, range(256))}];

/// The kind of piece that ends in each state, if any.
pub static ENDS: [Option<PieceKind>; STATES] = [
{"".join(f"    {rust_kind(kind)},{chr(10)}" for kind in ends)}];

/// The quoted terminals in the order of their bytes.
pub static QUOTED: [&[u8]; {len(QUOTED)}] = [
{"".join(f'    b"{text}",{chr(10)}' for text in QUOTED)}];

/// For each slot of a text, the place above of the one quoted terminal that the text can be.
pub static QUOTED_AT: [u8; {SLOTS}] = {rust_list(quoted_at())};

/// Whether each byte is a sign that is a quoted terminal by itself, with which no longer piece begins.
pub static SIGNS: [bool; 256] = {rust_list(signs())};

/// How many states of UTF-8 there are.
pub const UTF8_STATES: usize = {len(utf8_states)};

/// The state of UTF-8 in which no text goes on.
pub const UTF8_DEAD: usize = {utf8_dead};

/// The class of each byte in UTF-8.
pub static UTF8_CLASSES: [u8; 256] = {rust_list(utf8_classes)};

/// The state of UTF-8 after a byte of each class. It begins in the state 0, between two characters.
pub static UTF8_NEXT: [[u8; {len(utf8_members)}]; UTF8_STATES] = [
{rust_rows(utf8_rows, utf8_members)}];
"""
        )
    with open(crate + "proofs/Labels.antt", "w") as out:
        out.write(
            "-- generated by tools/lexer_table.py; do not edit\n"
            "-- What each state still wants, for each kind of piece in the order of `kind_code`. Table.antt computes\n"
            "-- that it serves.\n"
            "use Rattle.std.specs.Prelude.{ℕ, List, [], ◌∷◌}\n"
            "use Rattle.widl_lex.specs.Pattern.{Pattern, Never, Nothing, Range, Cat, Alt, Star}\n\n"
            "abbrev pub labels : List (List Pattern)\nlabels ="
        )
        out.write(antt_list("(" + " ∷ ".join(map(term, state)) + " ∷ [])" for state in states) + "\n\n")
        out.write(
            "-- the states inside a block comment: after its first two bytes, and after a star\n"
            f"abbrev pub in_comment : ℕ\nin_comment = {comment}\n\nabbrev pub after_star : ℕ\nafter_star = {star_state}\n"
        )
    with open(crate + "proofs/Utf8Table.antt", "w") as out:
        out.write(
            "-- generated by tools/lexer_table.py; do not edit\n"
            "-- What each state of UTF-8 still wants, and the token states beside it. Characters.antt and Whole.antt\n"
            "-- compute that it serves.\n"
            "use Rattle.std.specs.Prelude.{ℕ, List, [], ◌∷◌}\n"
            "use Rattle.widl_lex.specs.Pattern.{Pattern, Never, Range, Cat, Alt, Star}\n\n"
            "abbrev pub utf8_labels : List Pattern\nutf8_labels ="
        )
        out.write(antt_list(term(state[0]) for state in utf8_states) + "\n\n")
        out.write("-- for each state but the dead one, bytes that end the character\nabbrev pub finishes : List (List ℕ)\nfinishes =")
        out.write(antt_list("(" + " ∷ ".join(map(str, end + ["[]"])) + ")" for end in finish(utf8_rows, utf8_dead)) + "\n\n")
        out.write("-- for each state of UTF-8, the token states that may stand beside it, as the bits of a number\nabbrev pub beside : List ℕ\nbeside =")
        out.write(antt_list(map(str, beside(rows, utf8_rows, utf8_dead, False))) + "\n\n")
        out.write("-- the same within the first character\nabbrev pub within_first : List ℕ\nwithin_first =")
        out.write(antt_list(map(str, beside(rows, utf8_rows, utf8_dead, True))) + "\n")
    print(f"{len(states)} states, dead {dead}; UTF-8: {len(utf8_states)} states, {len(utf8_members)} classes, dead {utf8_dead}")


if __name__ == "__main__":
    main()
