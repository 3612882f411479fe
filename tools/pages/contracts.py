"""The page CONTRACTS.md of a crate: every public call with its description and its clauses, out of `src/`. The description of
a call, or a comment above some of its clauses, says in words what the clauses state. The module also finds clauses without
words.

make imports it.
"""
import pathlib
import re
from typing import NamedTuple

TOP = pathlib.Path(__file__).resolve().parents[2]
# The crates that have the page.
CRATES = ("octets_code", "octets", "octets_literal", "octets_pieces", "octets_script", "octets_c")
# So many clauses `ensures` may share their words.
MOST = 8
HEAD = """# Contracts of `{0}`

Each public call, its description, and its clauses, as they are in `src/`. `tools/pages/make` writes this page; [CALLING.md](../octets/CALLING.md#the-picture) says how to read a clause, [WORDS.md](../../docs/WORDS.md) what the definitions mean, and the [glossary](../../docs/DEFINITIONS.md#terms) what a loan or a sink is.

- The description of a call says in words what the clauses directly below it state, and here and there what [no clause states](../../docs/PROOFS.md#mistakes-that-tests-catch), such as which pieces a sink gets. A line with `//` does so for the clauses below it. *Exactly if* means "if and only if".
- `S` is what `self` points to at the call, and `S'` at the return. A starred clause says what a loan leaves once it ends.
- `as X` says that the description and all clauses are word for word those of the method X, over this cursor. `fits, view as X` says so of the description and of these two.

{1}
"""
CLAUSE = re.compile(r"\s*(requires|ensures\*?)\b")
PUBLIC = re.compile(r"pub (extern \"C\" )?(fn|const|struct|enum|type)\b")
HIDDEN = {"Store", "Target"}  # traits that callers don't see
TOLD = {"fmt", "From"}  # traits whose impls say by a ghost member what they do


class Item(NamedTuple):
    """A public item of a source file."""

    name: str
    signature: str
    doc: list  # its paragraphs without the example, and of a type the public fields or the variants with theirs
    groups: list = []  # (the comment above the clauses, or "", and the clauses)
    line: int = 0

    def clauses(self):
        return [clause for _, clauses in self.groups for clause in clauses]


def tidy(text):
    """One line, with S for self."""
    text = re.sub(r"\s+", " ", text).strip()
    text = re.sub(r"\bself\.(?:old|now|entry)\b", "S", text)
    text = re.sub(r"\bself\.new\b", "S'", text)
    return text.replace("( ", "(").replace(", )", ")").replace("std::result::Result<", "Result<")


def paragraphs(lines):
    """The paragraphs and the points of a doc comment before its example, without links."""
    text = re.sub(r"\[(`[^`]*`)\](?:\([^)]*\))?", r"\1", "\n".join(lines).partition("```")[0])
    return [" ".join(it.split()) for it in re.split(r"\n\n|\n(?=- )", text.strip()) if it]


def statement(lines, at):
    """The text from line `at` to where its brackets are closed, and the line after it."""
    text, depth = "", 0
    while at < len(lines):
        line = re.sub(r"(^|\s)//.*$", "", lines[at])
        text += " " + line
        depth += sum(map(line.count, "({[")) - sum(map(line.count, ")}]"))
        at += 1
        if depth <= 0:
            break
    return text.strip(), at


def members_at(lines, at):
    """The public fields or the variants from line `at` on that have a description, each with it."""
    doc, is_enum = [], lines[at - 1].startswith("pub enum")
    while at < len(lines) and not lines[at].startswith("}"):
        line = lines[at].strip()
        if line.startswith("///"):
            doc.append(line[3:].strip())
        else:
            if doc and (is_enum or line.startswith("pub ")):
                yield f"{line.removeprefix('pub ').rstrip(',')}: {' '.join(paragraphs(doc))}"
            doc = []
        at += 1


def groups_at(lines, at):
    """The groups of clauses that begin at line `at`, and the line after them."""
    found, words, behind = [], [], at
    while at < len(lines) and (CLAUSE.match(lines[at]) or re.match(r"\s*(//.*)?$", lines[at])):
        if not CLAUSE.match(lines[at]):
            words += filter(None, [lines[at].strip("/ ")])
            at += 1
            continue
        if words or not found:
            found.append((" ".join(words), []))
            words = []
        text, at = statement(lines, at)
        kind, name, body = re.match(r"(\S+)\s*([\w-]*)\s*\{(.*)\}\s*;?$", text, re.S).groups()
        found[-1][1].append(f"{kind}{' ' + name if name else ''}: {tidy(body)}")
        behind = at
    return found, behind


def item_at(lines, at, doc, owner, trait):
    """The function, constant, type or ghost member that begins at line `at`, and the line after it."""
    first = at + 1
    members = list(members_at(lines, at + 1)) if re.match(r"pub (struct|enum)\b.*\{$", lines[at]) else []
    if members or lines[at].startswith("pub struct"):
        text, at = lines[at].rstrip(" {"), at + 1
    else:
        text, at = statement(lines, at)
    text = tidy(re.sub(r"^pub (extern \"C\" )?", "", text)).rstrip(" {;")
    text = re.sub(r", \}$", " }", text)
    groups, at = groups_at(lines, at)
    name = re.match(r"(?:const )?\w+ (\w+)", text)[1]
    if owner and text.startswith("fn "):
        name = f"{owner}::{name}"
        text = f"fn {owner}::{text[3:]}" + (f", as {trait}" if trait not in ("", owner) else "")
    return Item(name, text, [*paragraphs(doc), *members], groups, first), at


def items(lines):
    """Each public item, and each impl that has a description."""
    at, owner, trait, doc = 0, "", "", []
    while at < len(lines):
        line = lines[at].strip()
        at += 1
        if line.startswith("///"):
            doc.append(line[3:].strip())
            continue
        if lines[at - 1].startswith("}"):
            owner, trait = "", ""
        elif line.startswith("impl"):
            trait, owner = re.match(r"impl(?:<.*?>)? (?:(\w+).* for )?(\w+)", line).groups("")
            block = line.rstrip(" {")
            if doc:
                yield Item("", block, paragraphs(doc))
            if line.endswith("}"):
                owner, trait = "", ""
        elif trait in TOLD and line.startswith("ghost ") and "=" in line:
            text, at = statement(lines, at - 1)
            yield Item(f"{owner} {trait}", tidy(f"{block}: {text}").rstrip(";"), [])
        elif line.startswith("pub trait"):
            owner = trait = re.match(r"pub trait (\w+)", line)[1]
            yield Item(owner, line[4:].rstrip(" {"), paragraphs(doc))
        elif PUBLIC.match(line) or (trait and trait not in HIDDEN and re.match(r"fn |ghost \w+:", line)):
            item, at = item_at(lines, at - 1, doc, owner, trait)
            if item.groups or trait in ("", owner):
                yield item
        elif not line or line.startswith(("#[", "//")):
            continue
        doc = []


def files(crate):
    """(path, its lines) of each source of a crate that isn't a test."""
    for path in sorted((crate / "src").rglob("*.rt"), key=lambda path: str(path.with_suffix(""))):
        if "tests" not in path.relative_to(crate).parts and path.name != "tests.rt":
            yield path, path.read_text("utf-8").splitlines()


def description(lines):
    """The text at the head of a file."""
    return "\n\n".join(paragraphs([line[3:].strip() for line in lines if line.startswith("//!")]))


def twin(item, earlier):
    """The first call of the same name and description before a call, over another cursor, and the clauses that both have."""
    method = item.name.rpartition("::")[2]
    for other in earlier:
        same = [it for it in item.clauses() if it in other.clauses()]
        if other.name.rpartition("::")[2] == method and len(same) > 1 and item.doc and item.doc == other.doc:
            return other.name, same
    return "", []


def entry(item, earlier):
    """The lines of an item. What an earlier twin says isn't repeated."""
    other, same = twin(item, earlier)
    yield item.signature
    if not other:
        yield from ("  " + it for it in item.doc)
    elif same == item.clauses():
        yield f"  as {other}"
    else:
        yield f"  {', '.join(re.match(r'[^ :]+ ?([^:]*):', it)[1] for it in same)} as {other}"
    for words, clauses in item.groups:
        left = [it for it in clauses if it not in same]
        yield from [f"  // {words}"] * bool(words and left)
        yield from ("  " + it for it in left)


def page(crate):
    head = dict(files(crate))[crate / "src/lib.rt"]
    out, earlier = [HEAD.format(crate.name, description(head))], []
    for path, lines in files(crate):
        found = list(items(lines))
        if found:
            out += [f"## {path.relative_to(crate)}", "", description(lines), "", "```text"]
        for item in found:
            out += entry(item, earlier)
            earlier.append(item)
        out += ["```", ""] * bool(found)
    return "\n".join(out)


def faults():
    """Each public call with clauses that have no words, or whose words have to say too much."""
    for crate in CRATES:
        for path, lines in files(TOP / "crates" / crate):
            for item in items(lines):
                for words, clauses in item.groups:
                    where = f"{path.relative_to(TOP)}: {item.name}: `{clauses[0]}`"
                    if not words and not item.doc:
                        yield f"{where} has no words: put a comment above it"
                    elif sum(it.startswith("ensures") for it in clauses) > MOST:
                        yield f"{where} shares its words with too many clauses: put a comment above some of them"
