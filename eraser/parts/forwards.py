"""Writes the methods of a hand-written package that only call the erased method of their name.

Each type of that package has one field, which is the erased value. package.toml's table `forwards` says which impls have the methods
of each type, which methods aren't forwarded, and which feature a method needs.
"""

import re

from . import examples
from .source import Refused

KEYS = {"crate", "file", "types", "except", "feature", "features"}
HEAD = "//! The methods that only call the verified method of their name. Written by tools/erase: not to be edited.\n"
SIGNATURE = re.compile(r"pub (?:const )?fn \w+(<.*>)?\((.*?),? ?\)(?: -> (.*))?")
ALIAS = re.compile(r"pub type Result<T> = std::result::Result<T, (\w+)>;")
# What makes the value of an example, from an array.
MADE = re.compile(r"(?m)^(/// let (?:mut )?\w+ = )(\w+)::(\w+)\(&(\[.*\])\);$")


def written(crate):
    """The file of forwards of a crate, by its place from the crate's package."""
    table = crate.settings.get("forwards")
    if table is None:
        return {}
    if table.keys() != KEYS:
        raise Refused(f"{crate.folder}/package.toml: `forwards` has to have the keys {', '.join(sorted(KEYS))}")
    forwards = Forwards(crate, table)
    uses = f"use crate::{{{', '.join(table['types'])}}};\nuse {crate.package}::{{self as proved, *}};\n"
    return {table["file"]: HEAD + uses + "".join(forwards.impl(of) for of in table["types"])}


class Forwards:
    def __init__(self, crate, table):
        self.package, self.types, self.excepted, self.feature = table["crate"], table["types"], set(table["except"]), table["feature"]
        self.features = {name: feature for feature, names in table["features"].items() for name in names}
        self.error = next((found[1] for text in crate.texts.values() if (found := ALIAS.search(text))), None)
        self.functions = [each for source in crate.sources.values() for each in source.functions if each.is_public and each.impl_head]
        known = {name for of in self.types for each in self.of_type(of) for name in (each.name, f"{of}::{each.name}")}
        if unknown := (self.excepted | self.features.keys()) - known:
            raise Refused(f"{crate.folder}/package.toml: `forwards` names {sorted(unknown)[0]!r}, which no type has")

    def of_type(self, of):
        """The methods of a type, in the order in which package.toml names their features, and then the others."""
        heads, order = {"".join(each.split()) for each in self.types[of]}, list(self.features)
        found = [each for each in self.functions if each.impl_head in heads]
        return sorted(found, key=lambda each: order.index(each.name) if each.name in order else len(order))

    def impl(self, of):
        methods = [each for each in self.of_type(of) if not {each.name, f"{of}::{each.name}"} & self.excepted]
        return f"\nimpl<'a> {of}<'a> {{\n" + "\n".join(self.method(each, of) for each in methods) + "}\n"

    def method(self, function, of):
        """A method: its documentation, the feature that it needs, and the call."""
        signature = re.sub(r"\( ", "(", " ".join(function.header.split()))
        generics, parameters, result = SIGNATURE.fullmatch(signature).groups("")
        result, feature = self.result_of(result), self.features.get(function.name, self.feature)
        arguments = ", ".join(words[words[0] == "mut"] for words in function.parameters if "self" not in words)
        given = f"::<{', '.join(function.generics)}>" if function.generics else ""
        owner = "self.0." if function.is_method else f"proved::{of}::"
        lines = [*self.documentation(function, of, feature), *[f'#[cfg(feature = "{feature}")]'] * (feature != "none"), "#[inline]",
                 f"pub fn {function.name}{generics}({parameters}){f' -> {result}' if result else ''} {{",
                 f"    {self.wrapped(f'{owner}{function.name}{given}({arguments})', result)}", "}"]
        return "".join(f"    {line}".rstrip() + "\n" for line in lines)

    def result_of(self, result):
        """A type of a result as the package names it, whose `Result` has the error of the crate's own."""
        if found := re.fullmatch(r"(?:std::result::)?Result<(.*), (\w+)>", result):
            return f"Result<{found[1]}>" if found[2] == self.error else f"core::result::Result<{found[1]}, {found[2]}>"
        return result

    def wrapped(self, call, result):
        """The value of a call, as one of the package's types if it is one of the erased ones."""
        of = f"({'|'.join(self.types)})<'\\w+>"
        if result == "Self":
            return f"Self({call})"
        if found := re.fullmatch(f"Result<{of}>", result):
            return f"{call}.map({found[1]})"
        if found := re.fullmatch(rf"Result<\({of}, {of}\)>", result):
            return f"{call}.map(|(first, second)| ({found[1]}(first), {found[2]}(second)))"
        if re.search(rf"{of}|\bSelf\b", result):
            raise Refused(f"a forward that returns `{result}` isn't known: add the method to `except`, and write it by hand")
        return call

    def documentation(self, function, of, feature):
        """The lines of a doc comment. An example of a method of several types is about a value of this type."""
        made = {each.name: "mut" in each.parameters[0] for each in self.of_type(of) if not each.is_method}

        def value(found):
            begin, other, constructor, array = found.groups()
            if other == of or constructor not in made:
                return found[0]
            if made[constructor]:
                return f"/// let mut bytes = {array};\n{begin}{of}::{constructor}(&mut bytes);"
            return f"{begin}{of}::{constructor}(&{array});"

        text = MADE.sub(value, re.sub(r"(?m)^ +", "", function.documentation))
        if f"{of}::" not in "".join(found[2] for found in examples.EXAMPLE.finditer(text)):
            raise Refused(f"`{function.name}` is forwarded, and has no example that makes {of}, as by `let mut x = T::new(&[1, 2]);`")
        return examples.written(text, [self.package] + [f"{self.package}::{feature}"] * (feature == self.feature)).splitlines()


__all__ = ["written"]
