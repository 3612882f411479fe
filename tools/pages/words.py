"""The page docs/WORDS.md: the definitions in `specs/` that clauses of public calls or the examples use and that have a comment,
and the lemmas for callers, each with the comment above it. Only a lemma that is in no set has its statement there.

make imports it.
"""
import pathlib
import re

TOP = pathlib.Path(__file__).resolve().parents[2]
CRATES = ("octets_code", "octets", "octets_literal", "octets_pieces", "octets_script", "octets_c")
HEAD = """# Words

This page is for you if you read or write contracts. It lists the definitions in `specs/` that the contracts of public calls and the examples use, each with the comment above it, and lemmas, of which some are [for callers](#lemmas-for-callers). `tools/pages/make` writes this page. [DEFINITIONS.md](DEFINITIONS.md) explains the terms of the promise.

A starred definition is opaque: a tactic doesn't expand it unless the function names it in `unfolding(..)`. Some comments use these words: `x` behind `y` comes after y, a front is a prefix, the text of v is its Huffman encoding, and a run is a byte string that is read or written as a whole. A buffer has the same name if it is the same buffer, such as the same slice of the caller, and doesn't only have the same bytes: `IsUnchanged`, `Passes`, `Advances` and `Reads` all say this of the buffers of their two cursors.

You import a definition by its file. The definition `rest`, which is listed under `octets`, `Cursor`, is imported by `ghost use Rattle.octets.specs.Cursor.{rest}`. In a file of `specs/` or `proofs/` write `use` instead of `ghost use`. A function expands a definition by `#[tactic(auto, unfolding(octets::specs::Cursor::Reads))]`.

## Of the standard library

`Rattle.std.specs.Prelude` has these definitions, except those whose line names another module and `at_most`, which is in `Rattle.std.specs.Iterator`. A file of `proofs/` imports them from `Rattle.std.proofs.Common`.

| Definition | Meaning |
|---|---|
| `IsOk r`, `IsErr r`, `IsErrOf r e` | r is `Ok`; r is `Err`; r is `Err e`. |
| `IfOk r P`, `IfErr r P` | If r is `Ok`, P is true of its value; if r is `Err`, P is true of its error. In the other case nothing is said. |
| `IsOkAnd r P`, `IsErrAnd r P` | r is `Ok`, and P is true of its value; r is `Err`, and P is true of its error. |
| `OnOk r P`, `OnErr r P` | If r is `Ok`, P is true; if r is `Err`, P is true. P says nothing about the value or the error. `OnOk r P` and `IfOk r (λ _. P)` are the same statement, for a proof too. |
| `IfSome o P`, `IfNone o P` | If o is `Some`, P is true of its value; if o is `None`, P is true. |
| `MatchResult r P Q` | If r is `Ok`, P is true of its value; if r is `Err`, Q is true of its error. |
| `MatchOption o P Q` | If o is `None`, P is true; if o is `Some`, Q is true of its value. |
| `IsTrue b` | b is true. |
| `IsSome o`, `is_some o` | The first is the statement that o is `Some`. The second is the `Bool` that says whether it is. |
| `nat_lt a b` | the `Bool` that says whether a is less than b |
| `if b then x else y` | x if the `Bool` b is true, and otherwise y. You import it as `if◌then◌else◌`. |
| `length l` | how many elements the list l has |
| `slice_index_or l i d`, `slice_index l i` | element number i of the list l, counted from 0. If l has no such element, `slice_index_or` is d. For a list of numbers, `slice_index` is then 0. |
| `map f l` | the list of the values `f x` for the elements x of l, in their order |
| `flat_map f l` | the lists `f x` for the elements x of l, one after another. `flat_map (λ id. network 4 id) ids` is all numbers of `ids`, in four bytes each. |
| `All P l`, `Any P l` | P is true of each element of the list l; P is true of at least one element. |
| `AllPairs P l` | `P x y` is true of any two elements x and y of l of which x comes first. |
| `at_most n` | In an iterator's `remaining`: at most n items come before `None`. |
| `vec_len v`, `vec_capacity v` | the number of elements of the `Vec` v, and for how many it has memory |
| `slice_get l i` | `Some` of element number i of the list l; `None` if l has no such element |
| `sem 𝓛 (P)` in `ensures*` | P is about the end of a loan: what is true once the reference that the call returned is no longer used. P is made of `Lends` and of definitions such as `EndsPast` and `LendsPart`. The kit's page `docs/BORROWS.md` explains it. |
| `Lends R T s r F` | When the loan ends, s is `F x`, where x is the last value behind the reference r; R and T are the types of s and of x. It is in `Rattle.std.specs.Borrow`. |

`IfOk r (IsViewOf b)` is `IfOk r (λ v. IsViewOf b v)`: the value is the last argument.
"""
LEMMAS = """## Lemmas for callers

A function names lemmas and sets of lemmas in `#[tactic(auto, using(..))]`, and a hand-written proof calls them. A lemma that is in a set has no statement here: name the set. `using(..)` can't name a lemma whose name contains a dash; [CALLING.md](../crates/octets/CALLING.md#a-reader-and-a-writer) says what to do then.

[pairs.rt](../crates/octets_formats/src/pairs.rt) of `octets_formats` has a function that names a lemma of its own crate, which is in [PairReads.antt](../crates/octets_formats/proofs/PairReads.antt), and the same function with a hand-written proof, which is in [Answers.antt](../crates/octets_formats/proofs/pairs/read_pair_by_hand/Answers.antt). The file `proofs/Lib.antt` names each file directly in `proofs` by a line such as `mod PairReads`. [name_lists.rt](../crates/octets_lists/src/name_lists.rt) names a lemma whose proof goes through the cases of a definition.

A hand-written proof is in `proofs/FUNCTION/Answers.antt`, or in `proofs/MODULE/FUNCTION/Answers.antt`. It has a term for each goal, which is a statement that the checker has to prove, if the checker found no proof of it. `rt check --start FUNCTION --allow-holes` writes the file, and prints the names that are in scope. `c.in_ok-first` is the result of `let first = cursor.get_u16()?`: its value, and in `ensures` the clauses of `get_u16` for the case that it returned `Ok`. A loop has a name too: `c.records` is the loop with the label `'records`, and has its variables and its `invariant`. If a loop binds a pattern, only the whole item has a name here, and not the variables of the pattern.
"""
WORD = re.compile(r"(?:abbrev pub|unfoldable pub|pub record|pub data|pub) ([^\s:({]+)(.*)")
# Names that no clause uses: modules, and lemmas that a trait's ghost member needs.
SKIPPED = re.compile(r"use$|mod$|ruleset$|.*-")


def variable(constructor, at, word, names, below, comment):
    """A name in place of a constructor, with which the first clause of a definition by cases begins."""
    if constructor == "zero":
        for line in below:
            clause = re.findall(r"\([^()]*\)|\S+", line.partition(" =")[0])
            successor = re.match(r"\(suc (\w+)\)", clause[at + 1]) if clause[:1] == [word] and len(clause) > at + 1 else None
            if successor:
                return successor[1]
        return "n"
    said = [name for name in ("to_lower", "b") if re.search(rf"\b{name}\b", comment) and name not in names]
    return said[0] if said else "flag"


def arguments(word, head, below, comment):
    """The names of the arguments of a definition, if it names them."""
    if re.match(r"\s*[({]", head):
        groups = re.findall(r"\(([^:()]+):", head)
        return "".join(f" {' '.join(group.split())}" for group in groups)
    for line in below[:3]:
        found = re.match(re.escape(word) + r"((?: \{\w+\}| [a-z]\w*)*) =", line)
        if found:
            names = re.sub(r" \{\w+\}", "", found[1]).split()
            for at, name in enumerate(names):
                if name in ("zero", "true", "false"):
                    names[at] = variable(name, at, word, names, below[:9], comment)
            return "".join(f" {name}" for name in names)
    return ""


def definitions(lines):
    """(number of a line, the line) of each definition. What is within a record or a `data` is part of it."""
    within = None
    for at, line in enumerate(lines):
        indent = len(line) - len(line.lstrip())
        if within is not None and line.strip() and indent <= within:
            within = None
        if within is None and WORD.match(line.strip()):
            within = indent if re.match(r"(pub )?(unfoldable )?(pub )?(record|data)\b", line.strip()) else None
            yield at, line.strip()


def words(path, used):
    """(name with its arguments, whether it is opaque, comment) of each definition of a file that has a comment, if it is one of
    those that are used, or a lemma."""
    lines = path.read_text().splitlines()
    below = [line.strip() for line in lines]
    for at, line in definitions(lines):
        name, head = WORD.match(line).groups()
        is_lemma = re.match(r"pub (?!record|data)", line)
        if (comment := comment_above(lines, at)) and not SKIPPED.match(name) and (is_lemma or (path, name) in used):
            yield name + arguments(name, head, below[at + 1 :], comment), line.startswith("unfoldable"), comment


def comment_above(lines, at):
    """The comment that ends above line `at`, as one line."""
    top = at
    while top and lines[top - 1].strip().startswith("-- "):
        top -= 1
    return " ".join(line.strip()[3:] for line in lines[top:at])


def lemma(path, name, sets):
    """The line of the table for a lemma or a set: its statement, if the lemma is in no set, and its comment."""
    lines = path.read_text().splitlines()
    head = re.compile(rf"\s*pub (?:ruleset )?{re.escape(name)} ")
    at = next(number for number, line in enumerate(lines) if head.match(line))
    comment = comment_above(lines, at)
    if name in sets:
        return f"- `{name}`: {comment}" if comment else ""
    own = re.compile(rf"\s*({re.escape(name)} .*=|unfolding\b|$)")
    end = next((below for below in range(at + 1, len(lines)) if own.match(lines[below])), len(lines))
    said = re.sub(r"\s+", " ", " ".join(lines[at:end])).strip()
    said = said.removeprefix("pub ").replace("( ", "(").replace(", )", ")")
    return f"- `{said}`: {comment}".removesuffix(": ")


def lemmas(crate):
    """The lines of the table for `CallerLemmas` of a crate. Its own lemmas come before those of other files."""
    path = TOP / "crates" / crate / "proofs" / "CallerLemmas.antt"
    text = path.read_text()
    sets = {name for each in re.findall(r"pub ruleset \S+ = \(([^)]*)\)", text) for name in re.split(r",\s*", each)}
    for name in re.findall(r"^\s*pub (?:ruleset )?([\w-]+) ", text, re.M):
        if name != "use":
            yield lemma(path, name, sets)
    for below, module, names in re.findall(r"^pub use Rattle\.(\w+)\.([\w.]+)\.\{([^}]*)\}", text, re.M):
        for name in re.split(r",\s*", names):
            if below == "std":
                yield f"- `{name}`: a lemma of the kit, which `rt lemma {name}` prints"
            else:
                yield lemma(TOP / "crates" / below / f"{module.replace('.', '/')}.antt", name, sets)


def page(used):
    """The page, with the definitions of which (file, name) is used."""
    out = [HEAD]
    for name in CRATES:
        folder = TOP / "crates" / name / "specs"
        if not folder.is_dir():
            continue
        out += [f"## {name}", ""]
        for path in sorted(folder.rglob("*.antt")):
            rows = [f"- `{said}`{'*' * closed}: {comment}" for said, closed, comment in words(path, used)]
            if rows:
                out += [f"### {path.relative_to(folder).with_suffix('')}", *rows]
    out += [LEMMAS]
    for name in ("octets", "octets_literal"):
        out += [f"### {name}::proofs::CallerLemmas", *filter(None, lemmas(name)), ""]
    return "\n".join(out)
