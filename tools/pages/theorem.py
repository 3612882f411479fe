"""The page docs/THEOREM.md: the sentence that is proved, and for each part of it the clauses that state it and the definitions
that these use, down to names of the kit.

make imports it.
"""
import re
import textwrap
from functools import cache
from itertools import groupby
from pathlib import Path

import contracts
import specs
import words

TOP = Path(__file__).resolve().parents[2]
LENT = "slice slice_last get_bytes_mut peek_bytes_mut split_at put_u8 put_u16 put_u24 put_u32 put_u64 put_varint"
LENT += " put_varint_with_len put_marked as_mut lend lend_ahead lend_last lend_whole"
# The parts of the sentence: the words, what to know before, and the clauses of public functions that state it.
PARTS = (
    (
        "every byte string has one Huffman text",
        "`text v` is the text of the byte string v, and the only one. No two byte strings have the same text.",
        [("octets_code", "texts_apart", "one apart value injective")],
    ),
    (
        "encoding appends exactly it or, refused, a front of it",
        "The first function takes any sink `W`. `W.written` is the list of the bytes that were written to it, and `W.room` how "
        "many more fit, if that is known. The second is the method of a cursor.",
        [("octets", "put_huffman_encoded", "ok err fits are_bytes"), ("octets", "Cursor::put_huffman_encoded", "ok err fits")],
    ),
    (
        "decoding under a limit answers v exactly where the remaining bytes are v's text and v is within the limit, and "
        "refuses all else",
        "`value` says that a returned value is right, and `every` that a right value is returned, unless an allocation failed. "
        "`ends`, or `refused` and `passed`, says where the offset is, and that any other error means that there is no right value.",
        [
            ("octets", "Octets::get_huffman_decoded", "value every ends"),
            ("octets", "Octets::get_huffman_decoded_with_max_length", "value every ends"),
            ("octets", "Octets::get_huffman_decoded_counted", "value every ends"),
            ("octets", "Octets::get_huffman_decoded_into", "value every refused passed"),
        ],
    ),
    (
        "any list of cursor calls answers and stands as a byte list with a position",
        "`step` says what each call does to a list of bytes l with a position p, and `performs` of a call that it does so. Of "
        "a call that lends bytes for writing, `run` says it: it performs a list of "
        "[commands](../crates/octets_script/CALLING.md#which-calls-have-a-command), and the hand-written proofs of the "
        "functions with which it writes through a loan, `over_..` and `put_.._then_overwrite` of `octets_script`, name the call "
        "that lends. If an allocation fails, `run` stops early, and the same is true of the commands that it performed.",
        [("octets", "*", "performs"), ("octets_script", "run", "plays stopped some_left memory same_reference")],
    ),
    (
        "each lent view changing its own range alone",
        "`LendsPart c i o r` says: once the loan r ends, the buffer of the cursor c is as the call left it, but from position i "
        "on it has what was written through r, and the offset is o. The other definitions say so of a loan within a `Result`, "
        "of a cursor, of two cursors, and of bytes that the call has just written. The last function lends a view of a view.",
        [("octets", f"*::{name}", "writes_back") for name in LENT.split()]
        + [("octets_vectors", "put_in_view_of_view", "bytes")],
    ),
)
HEAD = """# The theorem

This page is for you if you review the library. It has all that the sentence in bold says: for each part of it the clauses that state it, and every definition that these use, down to names of the kit's standard library. `tools/pages/make` writes it from the sources that are proved. [PROOFS.md](PROOFS.md) says how to check the proofs, and what you trust.

**{sentence}**

{table}

`octets_code Table:{table_at}` has the table of codes, `groups`, which isn't shown: for each length the number of the first code, and the symbols that have a code of that length. Compare its {codes} lines with RFC 7541, Appendix B. Lines are counted without comments, as they are shown below; the sources have {bare} lines.

## How to read it

- `P ↔ Q` is "P if and only if Q", `×` "and", `⊎` "or", `→` "implies", and `¬` "not". `(v : T) → P` is "P for each v", and `(v : T) × P` "P for some v". `λ v. P` is the function of v. `f x y` is `f(x, y)` in Rust, and `c.off` is a field.
- A clause is shown as in the pages CONTRACTS.md: `S` is what `self` points to at the call, and `S'` at the return; so are `x.old` and `x.new` of another argument. A starred clause says what a loan leaves once it ends. `requires` is a condition on the caller.
- A definition follows the first clause or definition that uses it. `-- octets_code Texts:31` is its place, line 31 of `crates/octets_code/specs/Texts.antt`; the words after it are its comment there. `-- octets cursor:23` above a function is line 23 of `crates/octets/src/cursor.rt`.
- A definition by one equation is shown as `name (argument : type) : type = value`; the sources have the types on a line of their own. What these have in braces, such as `{{X : Type 0}} {{g : Ghosts X}}`, isn't shown: X is any type of buffer. Nor is the value of `text`, which a clause determines, nor are arguments that all definitions of a section have: `B.row B.Bytes` in a clause with `LendsPart` are the type of the buffer and its `impl Bytes`. `Type 0` is the type of statements, and of types.
- Lines that differ only in names of constructors or in numerals are one line: `f A/B = 1/2` is `f A = 1` and `f B = 2`. `..` is the same list of names again.
- A `record` is a structure. As a statement it is true if its fields have values, and those that are statements are true.
- `C.GetU8` is the variant `GetU8` of the enum `Command`, and `R.Done` the variant `Done` of `Reply`.
"""
ENDS = """## Where the definitions end

These are names of the kit, with the module that has the definition. `rt lemma length` prints the definition of `length`.

| Name | Meaning | Module |
|---|---|---|
{kit}

These are items of Rust in the sources, or what the kit makes of one:

| Name | Meaning | Place |
|---|---|---|
{rust}
"""
# The names of the kit that the table of words.HEAD doesn't have.
KIT = """
| `ℕ`, `zero`, `suc n` | the natural numbers; 0; n + 1 |
| `a + b`, `a - b`, `a * b`, `a / b`, `a % b`, `a ^ b`, `min a b` | arithmetic of natural numbers, which don't wrap: `a - b` is 0 if b is greater, `/` rounds down, and `^` is the power. |
| `a ≡ b`, `a ≢ b`, `a < b`, `a ≤ b` | equal; not equal; less; at most |
| `P ↔ Q`, `P ⊎ Q`, `⊤` | P if and only if Q; P or Q; what is always true. (`⊥` is what is never true.) |
| `Bool`, `true`, `false`, `a && b`, `a == b`, `nat_le a b` | the truth values; a and b; whether a is b; whether a is at most b |
| `List T`, `x ∷ l`, `l ++ m` | the lists of elements of T, of which `[]` has none; x and then l; l and then m |
| `take n l`, `drop n l`, `replicate n x` | the first n elements of l; l without them; n times x |
| `position_or_len f l` | the place, counted from 0, of the first element of l for which f is true; the length of l if there is none |
| `bit_or a b` | the bitwise or |
| `Result T E`, `Ok v`, `Err e` | Rust's `Result` |
| `Option T`, `Some v`, `some v`, `none` | Rust's `Option`, and that of the logic |
| `Vec T A` | Rust's `Vec`: `v.items` is the list of its elements. |
| `Bor T`, `MutBor T` | a reference; a mutable reference: `r.now` is the value behind it, and `r.ghost_name` its name, by which contracts tell one from another. |
| `GName`, `Fml` | the names of mutable references; the statements about loans |
| `RattleType`, `u8`, `Array T n`, `MutSlice`, `named` | types of Rust as the logic has them; `Array u8 0` is here the type of the bytes of a slice. |
| `LendsIfOk R T s r F x` | If r is `Ok`, `Lends R T s v F` for its reference v; otherwise s is x when the loan ends. |
| `follows_if R T s m F x`, `follows_both_if R T U s m F x` | the same for the name m of a reference, if there is one; for two names |
| `name_if_ok f r` | `some (f v)` if r is `Ok v`, and otherwise `none` |
"""
# What the kit makes of a trait or of a type.
MADE = {
    "Ghosts": "what `Bytes` says of a type of buffer: which bytes it has (`g.bytes`), and the same buffer with other bytes (`g.holding`)",
    "ghosts": "the same for slices, as the `impl` says: the bytes of `b` are `b.now`",
    "the_row": "the type `Cursor<B>` as the logic has it",
}
# Definitions that a clause of the page determines. How the sources compute them isn't shown.
FIXED = {"text": "the clause `value` of `texts_apart` says which list this is"}
WIDTH = 120
# From so many cases on, a definition is shown without the comments in it, and with like cases in one line.
MANY = 4


class Reached:
    """The definitions that clauses reach, names of the kit with their modules, and those of items of Rust."""

    def __init__(self, fixed=()):
        self.definitions, self.kit, self.rust, self.fixed = {}, {}, {}, fixed

    def read(self, text, known):
        """Adds what a text uses. Each capital name of it has to be known."""
        capitals = re.findall(r"(?<![\w.])[A-Z][A-Za-z]\w+(?!\w*[.])", re.sub(r'--.*|"[^"]*"', "", text))
        if lost := {*capitals} - {*known} - {"Type", "LOWER_CASE"}:
            raise SystemExit(f"docs/THEOREM.md: no import has the names {', '.join(sorted(lost))}")
        for used in specs.named(text, known):
            self.follow(*known[used])

    def follow(self, module, name):
        found = specs.find(module, name)
        if found is None:
            (self.rust if specs.OWN.match(module) else self.kit)[name] = module
        elif found[0] not in self.definitions:
            definition, file = found
            self.definitions[definition] = None
            here = f"Rattle.{definition.crate()}.specs.{definition.path.stem}"
            known = {name: (here, name) for name in file.own} | file.imports
            if definition.name not in self.fixed:
                self.read("\n".join(definition.lines), known)


@cache
def items(crate):
    """(path, its lines, item) of each public item of a crate."""
    home = TOP / "crates" / crate
    return [(path, lines, item) for path, lines in contracts.files(home) for item in contracts.items(lines)]


def functions(crate, name, wanted):
    """(place, lines of its file, function, its conditions and its clauses of these names) of each function of this name that
    has all these clauses. `*::name` has any owner, and `*` is any function."""
    found = []
    for path, lines, item in items(crate):
        if item.name == name or name[:1] == "*" and item.name.endswith(name[1:]):
            said = [(*re.match(r"(requires|ensures\*?) ?([\w-]*):", it).groups(), it) for it in item.clauses()]
            if set(wanted) <= {clause for kind, clause, _ in said if kind != "requires"}:
                stated = [it for kind, clause, it in said if kind == "requires" or clause in wanted]
                place = f"{crate} {path.relative_to(TOP / 'crates' / crate / 'src').with_suffix('')}:{item.line}"
                found.append((place, lines, item, stated))
    if not found:
        raise SystemExit(f"docs/THEOREM.md: {crate} has no function {name} with the clauses {' '.join(wanted)}")
    return found


def used_by_callers(examples):
    """(file, name) of each definition that clauses of public calls reach, or what these crates import."""
    reached = Reached()
    for crate in contracts.CRATES:
        for _, lines, item in items(crate):
            known = dict(specs.imports(lines))
            for used in specs.named("\n".join([item.signature, *item.clauses()]), known):
                reached.follow(*known[used])
    files = (path for crate in examples for part in ("src", "specs") for path in (TOP / "crates" / crate / part).rglob("*.*t"))
    for path in files:
        for _, (module, there) in specs.imports(path.read_text("utf-8").splitlines()):
            if there and specs.find(module, there):
                reached.follow(module, there)
    return {(it.path, it.name) for it in reached.definitions}


def split(text, sign):
    """The text, cut where this sign is outside of brackets."""
    depth, parts = 0, [""]
    for it in text:
        depth += (it in "({[") - (it in ")}]")
        parts = [*parts, ""] if it == sign and not depth else [*parts[:-1], parts[-1] + it]
    return [" ".join(it.split()) for it in parts]


def in_one(lines):
    """A definition by one equation, with the types at its arguments; None for any other."""
    at = next((it for it, line in enumerate(lines) if it and not line.startswith(" ")), 0)
    name, _, said = " ".join(lines[:at]).partition(" : ")
    arguments = re.match(re.escape(name) + r"((?: \{\w+\}| (?!zero|true|false)[a-zP]\w*)*) =(.*)", lines[at]) if at else None
    if not arguments or any(line.startswith(f"{name} ") for line in lines[at + 1 :]):
        return None
    names, types = re.sub(r" \{\w+\}", "", arguments[1]).split(), [it for it in split(said, "→") if it[:1] != "{"]
    grouped = groupby(zip(names, types), key=lambda it: re.sub(r"^\((.*)\)$", r"\1", it[1]))
    head = name + "".join(f" ({' '.join(it for it, _ in each)} : {type})" for type, each in grouped)
    head = f"{head} : {' → '.join(types[len(names) :])} ="
    body = [arguments[2].strip(), *lines[at + 1 :]]
    return [f"{head} {body[0]}".rstrip(), *body[1:]] if len(f"{head} {body[0]}") <= WIDTH else [head, f"    {body[0]}", *body[1:]]


def alike(clauses):
    """The clauses, where those of one line that differ only in names of constructors or in numerals are one."""
    groups = {}
    for clause in clauses:
        tokens = re.findall(r"[A-Z]\w*|\d+|\w+|\W", clause)
        groups.setdefault("".join(re.sub(r"^([A-Z]\w*|\d+)$", "#", it) for it in tokens), []).append(tokens)
    for each in groups.values():
        columns = ["/".join(dict.fromkeys(it) if len(set(it)) == 1 else it) for it in zip(*each)]
        listed = [at for at, it in enumerate(zip(*each)) if len(set(it)) > 1]
        is_one = len({columns[at] for at in listed}) == 1
        yield "".join(".." if is_one and at in listed[1:] else it for at, it in enumerate(columns))


def spread(line):
    """The clauses that such a line stands for."""
    lists = [it.split("/") for it in re.findall(r"\w+(?:/\w+)+", line)]
    for names in zip(*lists) if lists else [()]:
        each = iter(names)
        yield re.sub(r"\w+(?:/\w+)+|\.\.", lambda it: names[0] if it[0] == ".." else next(each), line)


def filled(text, first="", below="      "):
    """The text in lines of at most WIDTH characters, broken at blanks."""
    return textwrap.wrap(text, WIDTH, initial_indent=first, subsequent_indent=below, break_long_words=False, break_on_hyphens=False)


def wrapped(line):
    """The line in lines of at most WIDTH characters, where it has signs / to break at."""
    while len(line) > WIDTH and (at := line.rfind("/", 0, WIDTH)) > 0:
        yield line[: at + 1]
        line = f"      {line[at + 1 :]}"
    yield line


def displayed(definition):
    """The lines of a definition on the page."""
    head, *below = definition.bare()
    if head.startswith("record "):
        return definition.lines
    if not definition.is_data and (lines := in_one([head, *below])):
        return [f"{lines[0].partition(' = ')[0]}   -- {FIXED[definition.name]}"] if definition.name in FIXED else lines
    begins = r"\n(?=  \w)" if definition.is_data else rf"\n(?={re.escape(definition.name)} )"
    clauses = re.split(begins, "\n".join(["", *below]))[1:]
    if len(clauses) < MANY:
        return definition.lines
    shown = list(alike(clauses))
    if {it for line in shown for it in spread(line)} != {*clauses}:
        raise SystemExit(f"docs/THEOREM.md can't show the lines of {definition.name} that are alike as one")
    return [head, *(it for clause in shown for line in clause.split("\n") for it in wrapped(line))]


def length(definitions):
    """How many lines these have on the page, without comments and the table of codes."""
    shown = [line for it in definitions if it.name != "groups" for line in displayed(it)]
    return sum(not line.strip().startswith("--") for line in shown)


def rows(used):
    """A line for each row that has a name of the kit which is used."""
    left = {next(filter(None, name.split("◌"))): module for name, module in used.items() if name}
    for forms, meaning in re.findall(r"^\| (`.*?) \| (.*) \|$", words.HEAD + KIT, re.M):
        names = [it for form in re.findall(r"`([^`]*)`", forms) for it in form.split()]
        if modules := sorted({left.pop(it) for it in names if it in left}):
            yield f"| {forms} | {meaning} | {', '.join(it.removeprefix('Rattle.').replace('.specs', '') for it in modules)} |"
    if left:
        raise SystemExit(f"docs/THEOREM.md uses names of the kit that theorem.KIT has no row for: {', '.join(left)}")


def rust_rows(used, signatures):
    """A line for each item of Rust that is used: its name, the first sentence of its description, and its place."""
    traits = {name: f"Rattle.octets.specs.declared.{name}" for name in re.findall(r"\b[A-Z]: (\w+)", " ".join(signatures))}
    for name, module in sorted((used | traits).items()):
        crate, path = specs.OWN.match(module).groups()
        if name in MADE:
            yield f"| `{name}` | {MADE[name]} | |"
        elif path.startswith("declared.") and ".TheVariants" not in path:
            for file in sorted((TOP / "crates" / crate / "src").rglob("*.rt")):
                lines = file.read_text("utf-8").splitlines()
                at = next((it for it, line in enumerate(lines) if re.match(rf"pub (struct|enum|trait) {name}\b", line)), None)
                if at is not None:
                    top = next(it for it in range(at, -1, -1) if not lines[it].strip())
                    said = contracts.paragraphs([line[3:].strip() for line in lines[top:at] if line.startswith("///")])[0]
                    place = f"{crate} {file.relative_to(TOP / 'crates' / crate / 'src').with_suffix('')}"
                    yield f"| `{name}` | {said.partition('. ')[0].rstrip('.')}. | {place}:{at + 1} |"


def page():
    shown, whole, summary, out, signatures = {}, Reached(FIXED), [], [], []
    for said, meaning, calls in PARTS:
        found = [it for crate, name, wanted in calls for it in functions(crate, name, wanted.split())]
        own, clauses = Reached(FIXED), []
        out += [f"## {said[0].upper()}{said[1:]}", "", meaning, "", "```text"]
        for place, lines, item, stated in found:
            known = dict(specs.imports(lines))
            out += [f"-- {place}", *filled(item.signature), *(line for it in stated for line in filled(it, "  "))]
            signatures.append(item.signature)
            clauses += [it for it in stated if not it.startswith("requires")]
            for reached in (own, whole):
                reached.read("\n".join(it.partition(": ")[2] for it in stated), known)
        out += ["```", "", "```text"]
        new = [it for it in own.definitions if it not in shown]
        for it in (it for it in new if it.name != "groups"):
            out += [*filled(f"-- {it.place()} {it.comment}".rstrip(), "", "-- "), *displayed(it), ""]
        out[-1:] = ["```", ""]
        shown |= dict.fromkeys(new)
        summary.append((said, len(found), len(clauses), len(new), length(new), len(own.definitions), length(own.definitions)))
    total = ["together", *(sum(it[at] for it in summary) for at in (1, 2)), len(shown), length(shown), len(shown), length(shown)]
    table = ["| Part | Functions | Clauses | Definitions below it | Lines | With those above that it uses | Lines |", "|---|" + "---:|" * 6]
    table += ["| " + " | ".join(map(str, it)) + " |" for it in [*summary, total]]
    codes = next(it for it in shown if it.name == "groups")
    bare = sum(len(it.bare()) for it in shown if it is not codes)
    sentence = re.search(r"^\*\*(Every byte string .*)\*\*$", (TOP / "README.md").read_text("utf-8"), re.M)[1]
    if re.sub(r"[;:,.]", "", sentence).lower() != re.sub(r"[;:,.]", "", " ".join(said for said, *_ in PARTS)).lower():
        raise SystemExit("docs/THEOREM.md: the parts aren't the sentence in bold of README.md")
    head = HEAD.format(sentence=sentence, table="\n".join(table), table_at=codes.at, codes=len(codes.lines), bare=bare)
    return "\n".join([head, *out, ENDS.format(kit="\n".join(rows(whole.kit)), rust="\n".join(rust_rows(whole.rust, signatures)))])
