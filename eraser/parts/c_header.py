"""Writes the declarations of a hand-written header of C: each export with its doc comment.

package.toml's table `header` names the file, and the modules in the order in which their exports are declared. They come between a
comment that says so and the end of `extern "C"`; all else in the file is by hand. The header has to define PREFIX_CHECKED and
PREFIX_RESTRICT, as a type of status that exports return as `u8`, and the structures, whose names begin with the prefix.
"""

import os
import re
import textwrap

from .c_library import SCALARS, constant, exports_of, in_c, named_as_in_c, slice_of, structures_of
from .source import Refused

BEGIN = "/* The exports. tools/erase writes what follows from their doc comments. */\n"
END = "\n#ifdef __cplusplus\n}\n"
# A doc comment that refers to that of another export.
SHARED = re.compile(r"\s*/// As (\w+)\.\s*")


def written(crate, folder):
    """The header of a crate, by its place from the folder of the crate's package."""
    table = crate.settings.get("header")
    if table is None:
        return {}
    path = crate.folder / table["file"]
    exports = exports_of(crate)
    if unknown := {each.module for each in exports} ^ set(table["modules"]):
        raise Refused(f"{crate.folder}/package.toml: `header` has to name the modules with exports, and no others: {sorted(unknown)[0]!r}")
    exports.sort(key=lambda each: table["modules"].index(each.module))
    before, mark, behind = path.read_text().partition(BEGIN)
    end = behind.rfind(END)
    if end < 0:
        raise Refused(f"{path}: the line {BEGIN.strip()!r} isn't there, or no `extern \"C\"` ends behind it")
    return {os.path.relpath(path, folder): before + mark + declarations(crate, exports) + behind[end:]}


def declarations(crate, exports):
    firsts = {each.name: found[1] for each in exports if (found := SHARED.fullmatch(each.documentation))}
    structures, text = structures_of(crate), ""
    for each in exports:
        text += "" if each.name in firsts else "\n"
        text += said(crate, each, firsts) + declaration(crate, each, structures)
    return text


def said(crate, each, firsts):
    """The comment of an export. The first of those that share one is named with them."""
    if each.name in firsts:
        return f"/** @copydoc {firsts[each.name]} */\n"
    names = ", ".join([each.name, *(name for name, first in firsts.items() if first == each.name)])
    text = re.sub(r"(?m)^ */// ?", "", named_as_in_c(crate, each.documentation)).strip().replace("*/", "* /")
    parts = [" ".join(part.split()) for part in re.split(r"\n\s*\n|\n(?=- )", text)]
    parts[0] = f"{names}: {parts[0][0].lower()}{parts[0][1:]}"
    return "/** " + "\n * ".join(line for part in parts for line in filled(part, 110)) + " */\n"


def declaration(crate, each, structures):
    """An export as C declares it. Nothing else points to what a call writes, and no pointer may be NULL but those with a length."""
    prefix = constant(crate, "")
    places, checked, parameters = 0, [], []
    for name, of in each.parameters:
        places += 2 if slice_of(of) else 1
        checked += [str(places)] if of.startswith("&") and not slice_of(of) else []
        text = in_c(name, of)
        for structure in structures:
            text = re.sub(rf"^(const )?{structure}\b", rf"\g<1>{prefix.lower()}{structure.lower()}", text)
        parameters.append(re.sub(r"\*(?=\w)", f"*{prefix}RESTRICT ", text, count=1) if of.startswith("&mut") else text)
    is_status = each.result == "u8"
    result = f"{prefix.lower()}status" if is_status else SCALARS.get(each.result, "void")
    head = f"{prefix}CHECKED({', '.join(checked)})\n" if is_status and checked else ""
    lines = filled(f"{result} {each.name}({', '.join(parameters) or 'void'});".replace(" ", "\0").replace(",\0", ", "), 100)
    return head + "\n    ".join(lines).replace("\0", " ") + "\n"


def filled(text, width):
    return textwrap.wrap(text, width, break_long_words=False, break_on_hyphens=False)


__all__ = ["written"]
