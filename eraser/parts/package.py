"""The package of Cargo that an erased crate becomes: Cargo.toml, README.md, and the attributes of its root file."""

import hashlib
import json
import os
import re

LINTS = "#![allow(clippy::all, missing_docs, unstable_name_collisions, unused)]\n"
NARROW = """\
#[cfg(not(any(target_pointer_width = "64", feature = "usize_of_32_bits")))]
compile_error!("the proofs are of a `usize` with 64 bits, and here it has fewer: if you have checked every bound of this \\
crate for that, enable its feature `usize_of_32_bits`");

"""
NO_MAIN = '#![cfg_attr(all(not(test), target_os = "linux", target_env = "gnu"), no_main)]\n'
"""A program's `main` is then called without Rust's start-up code, which would replace closed standard streams."""


def root_attributes(crate):
    text = "" if crate.needs_host else '#![cfg_attr(not(test), no_std)]\n'
    text += NO_MAIN if crate.is_program else ""
    text += LINTS + ("#![deny(unsafe_code)]\n" if crate.is_program else "#![forbid(unsafe_code)]\n") + "\n"
    return text + ("" if crate.settings.get("usize_of_32_bits") else NARROW)


def with_head(crate, place, text, prelude):
    """The text of a file with where it is from, the attributes of a root, and the prelude."""
    documentation, rest = re.fullmatch(r"((?://![^\n]*\n)*)\s*(.*)", text, re.S).groups()
    is_root = place in ("src/lib.rs", "src/main.rs")
    inner, rest = re.fullmatch(r"((?:#!\[[^\n]*\]\n)*)\s*(.*)", rest, re.S).groups()
    head = f"// Erased from crates/{crate.name}/{place[:-3]}.rt by tools/erase.\n{documentation}"
    return f"{head}{inner}{root_attributes(crate) if is_root else ''}{prelude.lstrip()}\n{rest}"


def manifest(crate, places, license_line, kit):
    """Cargo.toml. `places` has the folder of each dependency, and of the hand-written packages, as paths from the package."""
    settings = crate.settings
    description = settings.get("description", f"The source of the Rattle crate `{crate.name}`, its contracts erased")
    lines = ["# Written by tools/erase: not to be edited.", "[package]", f'name = "{crate.package}"',
             f'version = "{settings.get("version", "0.1.0")}"', 'edition = "2024"', f'rust-version = "{crate.rust_version}"',
             f'description = "{description}"', 'readme = "README.md"', license_line,
             'include = ["/src", "/README.md"]', "",
             "[package.metadata.rattle]", f'crate = "{crate.name}"', f'kit = "{kit}"',
             f"# The tree of crates/{crate.name}/src alone: its specs, proofs and package.toml aren't in it.",
             f'sources = "{tree_of(crate)}"', *measures(crate), ""]
    if not crate.is_program and "examples" not in crate.settings:
        lines += ["[lib]", "doctest = false", ""]
    lines += features(crate)
    lines += dependencies(crate, places)
    return "\n".join(lines) + "\n"


def measures(crate):
    """The line for the crates above that says which method computes what contracts say of a type."""
    entries = crate.settings.get("measures", {}).items()
    return [f"measures = {{ {', '.join(f'{json.dumps(key)} = {json.dumps(value)}' for key, value in entries)} }}"] if entries else []


def features(crate):
    lines = []
    if not crate.is_program:
        below = [f'"{each}/checked"' for each in crate.dependencies]
        lines += ['default = ["checked"]', "# A public function checks its conditions, where they can be, and panics with the clause.",
                  f"checked = [{', '.join(below)}]"]
    if not crate.settings.get("usize_of_32_bits"):
        lines += ["# Says that you have checked every bound of this crate for a `usize` with 32 bits.", "usize_of_32_bits = []"]
    return ["[features]", *lines, ""] if lines else []


def dependencies(crate, places):
    def line(name, package, more=""):
        where, version = places[name]
        named = f'package = "{package}", ' if package != name else ""
        # Cargo ignores what follows a plus sign in a requirement.
        return f'{name} = {{ {named}{where}, version = "{version.partition("+")[0]}"{more} }}'

    features = "" if crate.settings.get("small_std") else ', features = ["full"]'
    lines = ["[dependencies]", line("rattle_host", "rattle_host") if crate.needs_host else line("rattle_std", "rattle_std", features)]
    if crate.is_program:
        lines.append(line("rattle_c", "rattle_c", ', features = ["main"]'))
    for each in crate.dependencies:
        more = "" if crate.is_program else ", default-features = false"
        lines.append(line(each, places[each, "package"], more))
    if crate.has_tests and not crate.needs_host:
        lines += ["", "[dev-dependencies]", line("rattle_host", "rattle_host")]
    return lines


def tree_of(crate):
    """The identifier that git gives the folder of the sources, by its content alone."""
    def tree(folder):
        entries = []
        for each in sorted(folder.iterdir(), key=lambda path: path.name + ("/" if path.is_dir() else "")):
            if each.is_dir():
                entries.append(b"40000 " + each.name.encode() + b"\0" + bytes.fromhex(tree(each)))
            else:
                data = each.read_bytes()
                blob = hashlib.sha1(b"blob %d\0" % len(data) + data).digest()
                mode = b"100755 " if os.access(each, os.X_OK) else b"100644 "
                entries.append(mode + each.name.encode() + b"\0" + blob)
        data = b"".join(entries)
        return hashlib.sha1(b"tree %d\0" % len(data) + data).hexdigest()
    return tree(crate.folder / "src")


def in_table(text):
    return text.replace("|", "\\|")


def invariants(crate):
    """What the proofs rely on of structures whose fields a caller can change."""
    rows = [f"| `{name}` | `{in_table(each)}` |" for source in crate.sources.values()
            for name, conditions, is_open in source.structures if is_open for each in conditions]
    if not rows:
        return []
    return ["", "## Invariants of structures", "",
            "The functions of this package keep these conditions, and rely on them. These structures have public fields, so a caller in "
            "Rust who makes or changes a value has to keep them too. Nothing checks them.",
            "", "| Structure | Invariant |", "|---|---|", *rows]


def in_words(clause, documentation):
    """The sentences of a doc comment that say a condition in words: of those with `must`, the ones that name what it names."""
    text = re.split(r"\n\s*\n|```|^#", re.sub(r"(?m)^ *///[ ]?", "", documentation))
    sentences = [each for part in text for each in re.split(r"(?<=[.!]) (?=[A-Z`])", " ".join(part.split()))
                 if re.search(r"\b(?:must|ha(?:s|ve) to)\b", each)]
    named = [each for each in sentences if set(re.findall(r"\w+", clause)) & set(re.findall(r"\w+", "".join(re.findall(r"`[^`]*`", each))))]
    return "".join(f"{in_table(each)} " for each in named or sentences)


def readme(crate, functions):
    """README.md: what the package is, and the conditions of its public functions."""
    text = [f"# {crate.package}", "",
            f"This is the source of the Rattle crate `{crate.name}`, with its contracts erased: plain Rust, written by `tools/erase`. "
            "Each function has the text that Rattle's checker proves. "
            "`tools/erase` doesn't run the checker: `rt ci` does, over the sources that Cargo.toml names."]
    public = [(path, each) for path, each in functions if each.is_public]
    by_hand = ", and those marked \"as\" by this expression of package.toml," if crate.settings.get("checks") else ""
    if public and not crate.is_program:
        text += ["", "## Conditions on callers", "",
                 "Rattle's checker proves these conditions at each call in Rattle. A caller in Rust has to meet them. " + (
                     f"With the feature `checked`, which is on by default, a function checks those marked \"yes\"{by_hand} and panics if one "
                     "doesn't hold." if any(each.checks for _, each in public)
                     else "No function checks them."),
                 "", "| Function | Condition | Checked |", "|---|---|---|"]
        for path, each in public:
            place = path.relative_to(crate.folder / "src").with_suffix("").as_posix()
            for clause, check in each.conditions:
                is_checked = (clause, check) in each.checks
                said = "" if is_checked else in_words(clause, each.documentation)
                own = crate.settings.get("checks", {}).get(clause)
                checked = "no" if not is_checked else f"as `{in_table(own)}`" if own else "yes"
                text.append(f"| `{each.name}` ({place}) | {said}`{in_table(clause)}` | {checked} |")
    text += invariants(crate)
    return "\n".join(text) + "\n"
