#!/usr/bin/env python3
"""Writes each file of the folder src/tables of octets_code and of octets_pieces. The 257 codes of RFC 7541,
Appendix B, come from crates/octets_code/specs/Table.antt. This program needn't be trusted: the proofs of both
crates compare each number of the tables with the codes.

usage: tools/tables.py [--check]

With --check it writes nothing, and reports each file that differs from what it would write.
It needs only Python, and takes a second.
"""

import pathlib
import re
import sys
import textwrap

CRATES = pathlib.Path(__file__).resolve().parent.parent / "crates"
END = 256
# How many bits index the lookup table of complete codes.
LOOK = 12


def read_codes():
    """The codes of the symbols 0 to 256, in order, each as a string of 0 and 1."""
    group = r"len = (\d+);\s+first = (0x[0-9a-f]+);\s+symbols = ([\d\s∷]+)\[\]"
    codes = {}
    for length, first, symbols in re.findall(group, (CRATES / "octets_code/specs/Table.antt").read_text("utf-8")):
        for at, symbol in enumerate(re.findall(r"\d+", symbols)):
            codes[int(symbol)] = f"{int(first, 16) + at:0{int(length)}b}"
    assert sorted(codes) == list(range(END + 1))
    return [codes[symbol] for symbol in range(END + 1)]


def read_states(codes):
    """The prefixes of codes that aren't codes, by the number of their state: first 0 to 7 one bits, and then the
    others, sorted by their length and then by the number that they spell."""
    prefixes = {code[:at] for code in codes for at in range(len(code))}
    fill = ["1" * ones for ones in range(8)]
    return fill + sorted(prefixes - set(fill), key=lambda prefix: (len(prefix), prefix))


def moves(codes, states, count):
    """The moves of each state over each `count` bits: the number of the next state, and the symbol whose code was
    completed, or None. After the end code there is no next state."""
    symbols = {code: symbol for symbol, code in enumerate(codes)}
    numbers = {prefix: number for number, prefix in enumerate(states)}

    def move(prefix, bits):
        symbol = None
        for bit in bits:
            prefix += bit
            if symbols.get(prefix) == END:
                return None, END
            if prefix in symbols:
                prefix, symbol = "", symbols[prefix]
        return numbers[prefix], symbol

    return [[move(prefix, f"{bits:0{count}b}") for bits in range(1 << count)] for prefix in states]


def looks(codes):
    """Two tables with an entry for each twelve bits. The first has how many bits the complete codes have, of which
    it counts at most two, plus 64 times the number of these codes. The second has their bytes, the first byte
    lower."""
    cuts, pairs = [0] * (1 << LOOK), [0] * (1 << LOOK)

    def fill(bits, count, pair):
        spare = LOOK - len(bits)
        for at in range(int(bits, 2) << spare, (int(bits, 2) + 1) << spare):
            cuts[at], pairs[at] = len(bits) | count << 6, pair

    for first, code in enumerate(codes[:END]):
        if len(code) <= LOOK:
            fill(code, 1, first)
            for second, more in enumerate(codes[:END]):
                if len(code + more) <= LOOK:
                    fill(code + more, 2, first | second << 8)
    return cuts, pairs


def symbols_by_ones(codes):
    """A table with an entry for each number of one bits, from 0 to 30, and each five bits after the zero that
    follows: 32 times the symbol whose code begins so, plus the length of its code."""
    table = [END << 5 | len(codes[END])] * (31 * 32)
    for symbol, code in enumerate(codes[:END]):
        ones = code.index("0")
        more = code[ones + 1 :]
        spare = 5 - len(more)
        first = ones << 5 | int(more or "0", 2) << spare
        table[first : first + (1 << spare)] = [symbol << 5 | len(code)] * (1 << spare)
    return table


def static(doc, name, kind, lines):
    comment = [f"/// {line}" for line in doc]
    return [*comment, "#[rattlefmt::skip]", f"pub(crate) static {name}: {kind} = [", *lines, "];"]


def numbers(table, wide):
    """Lines of `wide` entries, each followed by the index of its first entry."""
    for at in range(0, len(table), wide):
        yield "    " + ", ".join(map(str, table[at : at + wide])) + f", // {at}"


def long_rows(rows):
    """Lines of rows that are longer than a line, each followed by its index. A line ends between two entries."""
    for at, row in enumerate(rows):
        whole = re.sub(r"\((\d+), ", r"(\1,~", row)
        for line in textwrap.wrap(f"{whole}, // {at}", 100, initial_indent="    ", subsequent_indent="     "):
            yield line.replace("~", " ")


def spelled(number, symbol):
    """A move as a value of the enum `Move`."""
    return "End" if symbol == END else f"On({number})" if symbol is None else f"Byte({number}, {symbol})"


def packed(number, symbol):
    """A move as one number."""
    return 3 << 16 if symbol == END else number if symbol is None else 1 << 16 | symbol << 8 | number


def moves_table(what, name, codes, states, count, lines):
    table = [[spelled(*move) for move in row] for row in moves(codes, states, count)]
    used = sorted({it.split("(")[0] for entries in table for it in entries})
    doc = f"The moves of each state, by its number, over {what}."
    rows = [f"[{', '.join(entries)}]" for entries in table]
    return [f"use crate::entries::Move::{{self, {', '.join(used)}}};", "", *static([doc], name, f"[[Move; {1 << count}]; 256]", lines(rows))]


def files():
    """The lines of each file, by its path."""
    codes = read_codes()
    states = read_states(codes)
    cuts, pairs = looks(codes)
    entries = (f"    Code {{ len: {len(code)}, bits: {int(code, 2):#x} }}, // {at}" for at, code in enumerate(codes))
    doc_of_codes = ["The codes of the symbols 0 to 256, in order (RFC 7541, Appendix B)."]
    doc_of_lengths = ["The length of the code of each byte in bits."]
    doc_of_fronts = [
        "The number of the state of each prefix of at most three bits. The index is the number that these",
        "bits spell after a one bit.",
    ]
    doc_of_cuts = [
        "For each twelve bits, how many bits the codes have with which they begin, plus 64 times the",
        "number of these codes, which is at most two.",
    ]
    doc_of_pairs = ["The bytes of these codes. The first byte is the lower one. A byte without a code is 0."]
    doc_of_symbols = [
        "The entry for each number of one bits, from 0 to 30, and for each five bits after the zero that",
        "follows: 32 times the symbol whose code begins so, plus the length of its code. Thirty one bits",
        "are the end code.",
    ]
    doc_of_halves = [
        "The moves of each state over the half bytes 0 to 15, state by state: the number of the next",
        "state, plus 256 times the byte that was completed, plus 65,536 if one was. An entry of 196,608",
        "is the end code.",
    ]
    halves = [packed(*move) for row in moves(codes, states, 4) for move in row]
    fronts = [0] + [states.index(f"{at:b}"[1:]) for at in range(1, 16)]
    return {
        "octets_code/src/tables/codes.rt": ["use crate::entries::Code;", "", *static(doc_of_codes, "CODES", "[Code; 257]", entries)],
        "octets_code/src/tables/lengths.rt": static(doc_of_lengths, "CODE_LENGTHS", "[u32; 256]", numbers([len(code) for code in codes[:END]], 16)),
        "octets_code/src/tables/bit_moves.rt": moves_table("the bits 0 and 1", "BIT_MOVES", codes, states, 1, lambda rows: numbers(rows, 2)),
        "octets_code/src/tables/nibble_moves.rt": moves_table("the half bytes 0 to 15", "NIBBLE_MOVES", codes, states, 4, long_rows),
        "octets_code/src/tables/fronts.rt": static(doc_of_fronts, "FRONTS", "[u8; 16]", numbers(fronts, 8)),
        "octets_code/src/tables/looks.rt": [
            *static(doc_of_cuts, "CUTS", "[u8; 4096]", numbers(cuts, 16)),
            "",
            *static(doc_of_pairs, "PAIRS", "[u16; 4096]", numbers(pairs, 8)),
        ],
        "octets_code/src/tables/symbols.rt": static(doc_of_symbols, "SYMBOLS", "[u16; 992]", numbers(symbols_by_ones(codes), 8)),
        "octets_pieces/src/tables/halves.rt": static(doc_of_halves, "HALVES", "[u32; 4096]", numbers(halves, 8)),
    }


def main():
    written = {path: "\n".join(["// Written by tools/tables.py.", "", *lines, ""]) for path, lines in files().items()}
    if sys.argv[1:] != ["--check"]:
        for path, text in written.items():
            (CRATES / path).write_text(text, "utf-8")
        return 0
    folders = {(CRATES / path).parent for path in written}
    present = {str(path.relative_to(CRATES)): path.read_text("utf-8") for folder in folders for path in folder.glob("*")}
    other = sorted(path for path in present.keys() | written.keys() if present.get(path) != written.get(path))
    for path in other:
        print(f"crates/{path} differs from what tools/tables.py writes")
    print(f"{len(written.keys() - set(other))} passed, {len(other)} failed")
    return 1 if other else 0


sys.exit(main())
