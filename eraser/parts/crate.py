"""One crate of a repository of Rattle: its files, its names, and what its package.toml says."""

import re
import tomllib
from dataclasses import dataclass
from pathlib import Path

from . import examples
from .names import Names, names_of
from .source import EXPORT, Refused, Source, prelude
from .tokens import tokens_of

KEYS = {"name", "version", "license", "description", "checks", "measures", "usize_of_32_bits", "small_std", "examples", "exports", "forwards", "header"}
TEST_MODULE = re.compile(r"#\[cfg\(test\)\]\s*(?:pub(?:\([^)]*\))?\s+)?mod\s+(\w+)\s*;")
STD_NAMES = Path(__file__).with_name("std_names.txt")


@dataclass
class Listed:
    """A line of crates.txt."""

    dependencies: list
    is_staticlib: bool


def listed_crates(top):
    """What crates.txt says of each crate."""
    crates = {}
    for line in (top / "crates.txt").read_text().splitlines():
        head, _, dependencies = line.split("#")[0].partition(":")
        if head.split():
            name, *words = head.split()
            crates[name] = Listed(dependencies.split(),
                                  "staticlib" in words)
    return crates


class Crate:
    """A crate that is to be erased. `names` has what it and its dependencies define, and `measures` the methods that compute
    what contracts say of their types, by the type and the form of contracts."""

    def __init__(self, top, name, listed, dependency_names, dependency_measures):
        self.top, self.name, self.listed = top, name, listed
        self.folder = top / "crates" / name
        self.dependencies = listed.dependencies
        self.is_program = (self.folder / "src/main.rt").exists()
        self.settings = self.read_settings()
        self.measures = dependency_measures | measures_of(self.settings)
        self.paths = sorted((self.folder / "src").rglob("*.rt"))
        texts = {path: path.read_bytes().decode() for path in self.paths}
        self.texts, self.test_paths = texts, test_paths(texts)
        self.exports = any(EXPORT in text for text in texts.values())
        self.names = Names()
        for text in texts.values():
            self.names.add(names_of(text))
        self.own_names = Names().add(self.names)
        self.names.add(dependency_names)
        self.std_names = {name: mark or traits for mark, name, traits in re.findall(r"(\*?)(\w+):?(\S*)", STD_NAMES.read_text())}
        self.names_io = self.names_any("io")
        self.sources, self.is_hosted, self.used_checks = {}, False, set()

    def names_any(self, words):
        """Whether a file of the crate has one of these words, which commas separate."""
        return any(re.search(rf"\b(?:{words.replace(',', '|')})\b", text) for text in self.texts.values())

    @property
    def package(self):
        return self.settings.get("name", f"{self.name}_verified" if self.listed.is_staticlib else self.name)

    def read_settings(self):
        path = self.folder / "package.toml"
        settings = tomllib.loads(path.read_text()) if path.exists() else {}
        if unknown := settings.keys() - KEYS:
            raise Refused(f"{path}: the key {sorted(unknown)[0]!r} isn't known: it may have {', '.join(sorted(KEYS))}")
        return settings

    def erase(self):
        """The erased text of each file, by its place in the package. A library whose files turn out to need the host is read again."""
        for self.is_hosted in (self.is_program, True):
            self.sources = {path: self.erase_file(path) for path in self.paths}
            if self.is_hosted == self.needs_host:
                break
        if errors := [each for source in self.sources.values() for each in source.errors]:
            raise Refused("\n".join(dict.fromkeys(errors)))
        self.check_settings()
        return {path.relative_to(self.folder).with_suffix(".rs").as_posix(): finished(source)
                for path, source in self.sources.items()}

    def check_settings(self):
        """Refuses a check of a clause that no function has, and a measure that its method doesn't promise."""
        path, measures = self.folder / "package.toml", self.settings.get("measures", {})
        if unused := self.settings.get("checks", {}).keys() - self.used_checks:
            raise Refused(f"{path}: no function requires {sorted(unused)[0]!r}")
        functions = [each for source in self.sources.values() for each in source.functions]
        for form, method in measures.items():
            if form != "types":
                promise = "result ≡ " + re.sub(r"\bx\b", "self.now", form)
                found = [promise in each.promises and each.parameters == [["&", "self"]] for each in functions
                         if each.name == method and each.of in measures["types"]]
                if not found or not all(found):
                    raise Refused(f"{path}: the measure {form!r} isn't known: {method!r} of {' or '.join(measures['types'])} has to "
                                  f"take `&self` alone and have the clause `ensures {{ {promise} }}`")

    def erase_file(self, path):
        source = Source(path, self.texts[path], self, path in self.test_paths)
        source.items("")
        return source

    def prelude_of(self, place):
        """What an erased file brings in."""
        source = self.sources[(self.folder / place).with_suffix(".rt")]
        return prelude(source.macros, self.is_hosted or source.path in self.test_paths)

    def functions(self):
        """The functions that have conditions, each with its file."""
        return [(path, each) for path, source in self.sources.items() for each in source.functions if each.conditions]

    @property
    def needs_host(self):
        return self.is_program or any(source.needs_host for source in self.sources.values())

    @property
    def rust_version(self):
        """The oldest rustc that compiles the crate: a chain of conditions with `let` is newer than the edition."""
        return "1.88" if any(source.has_chain for source in self.sources.values()) else "1.85"

    @property
    def has_tests(self):
        return bool(self.test_paths) or any("#[test]" in text for text in self.texts.values())


def measures_of(settings):
    """The methods of `measures` in package.toml, or in the metadata of Cargo.toml, by each of its types and the form."""
    forms = dict(settings.get("measures", {}))
    return {(of, form): method for of in forms.pop("types", []) for form, method in forms.items()}


def test_paths(texts):
    """The files of modules that are there for tests alone."""
    found = set()
    for path, text in texts.items():
        place = path.parent if path.name in ("lib.rt", "main.rt", "mod.rt") else path.with_suffix("")
        for name in TEST_MODULE.findall(text):
            found |= {each for each in texts if each == place / f"{name}.rt" or place / name in each.parents}
    return found


def finished(source):
    """The text of an erased file, with few blank lines, and its examples."""
    parts, last, uses = [], "", source.crate.settings.get("examples")
    for token in tokens_of(source.joined(source.out)):
        blanks = re.sub(r"\n\s+\n", "\n\n", re.sub(r"[ \t]+\n", "\n", examples.written(token.before, uses)))
        parts += [re.sub(r"^\s+\n", "\n", blanks) if last == "{" else blanks, token.text]
        last = token.text
    return "".join(parts).strip() + "\n"
