"""What a contract and a definition in `specs/` name: the definitions of a file, and where a name that they use comes from.

theorem imports it.
"""
import re
from functools import cache
from pathlib import Path

import words

TOP = Path(__file__).resolve().parents[2]
USE = re.compile(r"^\s*(?:ghost )?(?:pub )?use ([\w.+-]+)(?:\.\{([^}]*)\}| as (\S+?))?;?\s*$")
OWN = re.compile(r"Rattle\.(octets\w*)\.specs\.(.+)$")


def imports(lines):
    """(name in these lines, (module, its name there)) of each import, and of each module that has another name."""
    for module, names, alias in (it.groups("") for it in map(USE.match, lines) if it):
        yield from [(f"{alias}.", (module, ""))] * bool(alias)
        for each in filter(None, re.split(r",\s*", names.strip())):
            name, _, here = each.partition(" as ")
            yield here or name, (module, name)


def named(text, known):
    """The names of `known` that a text uses, in their order. A name `◌+◌` is used where its sign is."""
    signs = {part: name for name in known for part in name.split("◌") if "◌" in name and part}
    for token in re.findall(r"[^\s(){}\[\],;]+", re.sub(r"--.*", "", text)):
        token = token.rstrip(".")
        first, dot, last = token.partition(".")
        if token in known or token in signs:
            yield signs.get(token, token)
        elif dot and (f"{first}." in known or first in known):
            yield f"{first}." if f"{first}." in known else first


class Definition:
    """A definition: its file, its line, the comment above it, and its lines. A lemma's lines are its statement alone."""

    def __init__(self, path, at, name, lines):
        self.path, self.at, self.name = path, at + 1, name
        self.comment = words.comment_above(lines, at)
        end = next((it for it in range(at, len(lines)) if not lines[it].strip()), len(lines))
        margin = len(lines[at]) - len(lines[at].lstrip())
        own = [re.sub(r"^( *)(?:(?:abbrev|unfoldable) )?(?:pub )?", r"\1", line[margin:]) for line in lines[at:end]]
        if re.match(r"\s*pub (?!record|data)", lines[at]):
            own = own[: next((it for it, line in enumerate(own) if re.match(rf"{re.escape(name)} .*=|unfolding ", line)), None)]
        self.lines = own
        self.is_data = own[0].startswith("data ")

    def crate(self):
        return self.path.parents[1].name

    def place(self):
        return f"{self.crate()} {self.path.stem}:{self.at}"

    def bare(self):
        """Its lines without comments."""
        return [line for line in self.lines if not line.strip().startswith("--")]


class File:
    """A file of `specs/`: its definitions and its imports."""

    def __init__(self, path):
        lines = path.read_text("utf-8").splitlines()
        self.imports, self.own = dict(imports(lines)), {}
        for at, line in words.definitions(lines):
            name = words.WORD.match(line)[1]
            if not re.match(r"(use|mod|ruleset)$", name):
                self.own[name] = Definition(path, at, name, lines)
        for it in list(self.own.values()):
            for constructor in re.findall(r"^\s+([\w ]+?) :", "\n".join(it.lines[1:]), re.M) if it.is_data else []:
                self.own |= {name: it for name in constructor.split() if name not in self.own}


@cache
def file(crate, module):
    path = TOP / "crates" / crate / "specs" / f"{module.replace('.', '/')}.antt"
    return File(path) if path.exists() else None


def find(module, name):
    """The definition of a name in a module of this repository, and its file; None for a name of the kit, or one that the kit
    makes of a Rust item."""
    own = OWN.match(module)
    found = file(*own.groups()) if own else None
    if found is None:
        return None
    if name in found.own:
        return found.own[name], found
    return find(*found.imports[name])
