"""The C library over an erased crate with exports: a package that gives C each function, and its header.

A slice becomes a pointer and a length, and every other type stays as it is. What C has no type for is refused.
"""

import re
from dataclasses import dataclass

from .source import Refused

SCALARS = {
    "bool": "bool", "i8": "int8_t", "i16": "int16_t", "i32": "int32_t", "i64": "int64_t", "isize": "ptrdiff_t",
    "u8": "uint8_t", "u16": "uint16_t", "u32": "uint32_t", "u64": "uint64_t", "usize": "size_t",
}
STRUCTURE = re.compile(r"((?:///[^\n]*\n)*)(?:#\[[^\]]*\]\s*)*#\[repr\(C\)\]\s*(?:#\[[^\]]*\]\s*)*pub struct (\w+) \{(.*?)\n\}", re.S)
FIELD = re.compile(r"((?: *///[^\n]*\n)*) *pub (\w+): ([^,\n]+),")
CONSTANT = re.compile(r"((?:///[^\n]*\n)*)pub(?:\(crate\))? const (\w+): (u8|u16|u32|u64|usize) = (\d+);")


@dataclass
class Export:
    """A function that C is given: where it is, its parameters by name and type, and its result's type, if any."""

    module: str
    name: str
    parameters: list
    result: str | None
    documentation: str


def exports_of(crate):
    """The exports, in the order of their files."""
    exports = []
    for path, source in crate.sources.items():
        module = path.relative_to(crate.folder / "src").with_suffix("").as_posix().replace("/", "::")
        for each in source.exports:
            exports.append(Export("" if module == "lib" else module, each.name, each.typed(), each.result, each.documentation))
    return exports


def structures_of(crate):
    """The module and the fields of each `repr(C)` structure."""
    found = {}
    for path, text in crate.texts.items():
        module = path.relative_to(crate.folder / "src").with_suffix("").as_posix().replace("/", "::")
        for documentation, name, body in STRUCTURE.findall(text):
            found[name] = ("" if module == "lib" else module, documentation, FIELD.findall(body))
    return found


def slice_of(of):
    """The element of a slice, and whether it is lent for writing."""
    found = re.fullmatch(r"&(mut)?\[(\w+)\]", of)
    return (found[2], bool(found[1])) if found and found[2] in SCALARS else None


def target_of(of):
    """What a reference points to."""
    return re.sub(r"^&(?:mut)?", "", of)


def is_known(of, structures):
    target = target_of(of)
    array = re.fullmatch(r"\[(\w+);\d+\]", target)
    if of == target:
        return of in SCALARS
    return target in SCALARS or target in structures or bool(array and array[1] in SCALARS)


def spaced(of, structures, verified):
    """A type as Rust's formatter writes it, a structure by its path."""
    target = target_of(of)
    if target in structures:
        module = structures[target][0]
        target = "::".join(part for part in (verified, module, target) if part)
    target = re.sub(r";", "; ", target)
    return {"&": "&", "&mut": "&mut "}.get(of[: len(of) - len(target_of(of))], "") + target


def written(crate, exports, structures):
    """exports.rs."""
    verified = crate.package
    helpers = sorted({"lent" if slice_of(of)[1] else "shown" for each in exports for _, of in each.parameters if slice_of(of)})
    text = f"//! The functions that C calls, each of which calls its verified counterpart. Written by tools/erase.\n"
    if helpers:
        text += f"use rattle_c::{helpers[0] if len(helpers) == 1 else '{' + ', '.join(helpers) + '}'};\n"
    for each in exports:
        text += export_text(each, structures, verified)
    return text


def export_text(each, structures, verified):
    taken, slices = [], []
    for name, of in each.parameters:
        if element := slice_of(of):
            taken += [f"{name}: *{'mut' if element[1] else 'const'} {element[0]}", f"{name}_len: usize"]
            slices.append(f"    let {name} = unsafe {{ {'lent' if element[1] else 'shown'}({name}, {name}_len) }};\n")
        elif is_known(of, structures):
            taken.append(f"{name}: {spaced(of, structures, verified)}")
        else:
            raise Refused(f"{each.name}: C has no type for the parameter {name}: {of}: an export takes slices of numbers, "
                          "numbers, `bool`, and references to those, to arrays of numbers and to `#[repr(C)]` structures")
    if each.result not in SCALARS and each.result is not None:
        raise Refused(f"{each.name}: C has no type for the result {each.result}: an export returns a number, `bool` or nothing")
    head = f'\n#[unsafe(no_mangle)]\npub {"unsafe " if slices else ""}extern "C" fn {each.name}('
    parameters, result = ", ".join(taken), f" -> {each.result}" if each.result else ""
    is_short = len(head.split("\n")[-1] + parameters + result) < 98
    head += (parameters if is_short else f"\n    {parameters},\n") + f"){result} {{\n"
    path = "::".join(part for part in (verified, each.module, each.name) if part)
    return f"{head}{''.join(slices)}    {path}({', '.join(name for name, _ in each.parameters)})\n}}\n"


def in_c(name, of):
    """A parameter or a field as C declares it."""
    if element := slice_of(of):
        return f"{'' if element[1] else 'const '}{SCALARS[element[0]]} *{name}, size_t {name}_len"
    target = target_of(of)
    const = "const " if of.startswith("&") and not of.startswith("&mut") else ""
    if array := re.fullmatch(r"\[(\w+);(\d+)\]", target):
        return f"{const}{SCALARS[array[1]]} (*{name})[{array[2]}]" if of != target else f"{SCALARS[array[1]]} {name}[{array[2]}]"
    return f"{const}{SCALARS.get(target, target)} {'*' if of != target else ''}{name}"


def named_as_in_c(crate, documentation):
    """A doc comment with the crate's constants under their names in C."""
    names = [name for text in crate.texts.values() for _, name, _, _ in CONSTANT.findall(text)]
    if not names:
        return documentation
    return re.sub(rf"\b(?:\w+::)*({'|'.join(names)})\b", lambda found: constant(crate, found[1]), documentation)


def comment(crate, documentation):
    documentation = named_as_in_c(crate, documentation)
    lines = [re.sub(r"^ *///? ?", "", line) for line in documentation.rstrip("\n").split("\n")] if documentation.strip() else []
    lines = [line.replace("*/", "* /") for line in lines]
    if len(lines) == 1:
        return f"/* {lines[0]} */\n"
    return "/*\n" + "".join(f" * {line}".rstrip() + "\n" for line in lines) + " */\n" if lines else ""


def indented(text):
    return re.sub(r"(?m)^(?=.)", "    ", text)


def constant(crate, name):
    """The name of a constant in C, which begins with that of the crate without `_c`."""
    prefix = f"{crate.name.removesuffix('_c').upper()}_"
    return name if name.startswith(prefix) else prefix + name


def header(crate, exports, structures):
    """NAME.h, for a crate whose header isn't hand-written."""
    guard = f"{crate.name.upper()}_H"
    text = (f"/*\n * Written by tools/erase from crates/{crate.name}.\n *\n"
            " * A pointer may be NULL if its length is 0, and not otherwise. What a call writes may not overlap with anything\n"
            " * else that it is given. Whatever a pointer leads to has to be initialized, also where a call only writes it.\n */\n"
            f"#ifndef {guard}\n#define {guard}\n\n#include <stdbool.h>\n#include <stddef.h>\n#include <stdint.h>\n\n"
            '#ifdef __cplusplus\nextern "C" {\n#endif\n')
    for path, source in crate.texts.items():
        for documentation, name, _, value in CONSTANT.findall(source):
            text += f"\n{comment(crate, documentation)}#define {constant(crate, name)} {value}\n"
    for name, (_, documentation, fields) in structures.items():
        members = "".join(f"{indented(comment(crate, said))}    {in_c(field, of)};\n" for said, field, of in fields)
        text += f"\n{comment(crate, documentation)}typedef struct {name} {{\n{members}}} {name};\n"
    for each in exports:
        taken = ", ".join(in_c(name, of) for name, of in each.parameters) or "void"
        text += f"\n{comment(crate, each.documentation)}{SCALARS.get(each.result, 'void')} {each.name}({taken});\n"
    return text + "\n#ifdef __cplusplus\n}\n#endif\n\n#endif\n"


MANIFEST = """\
# Written by tools/erase: not to be edited.
[package]
name = "{name}"
version = "{version}"
edition = "2024"
rust-version = "{rust_version}"
description = "The C library of {name}.h, by functions that were verified in Rattle"
readme = "README.md"
{license}

[dependencies]
{package} = {{ path = "..", version = "{required}", default-features = false }}
rattle_c = {{ {rattle_c} }}
{features}
[lib]
crate-type = ["staticlib", "cdylib"]
doctest = false
test = false

[profile.dev]
panic = "abort"

[profile.release]
panic = "abort"
codegen-units = 1
lto = "fat"
"""

ROOT = """\
//! The C library of `{name}.h`: each function calls its verified counterpart. Written by tools/erase.
#![no_std]
#![deny(unsafe_code, unsafe_op_in_unsafe_fn)]

#[allow(unsafe_code)]
mod exports;

rattle_c::library!();
"""

README = """\
# {name}

This is the C library of `include/{name}.h`, over the verified source in the folder above, written by `tools/erase`:

    cargo build --release
    cc app.c -Iinclude target/release/lib{name}.a
"""


def package(crate, rattle_c, license_line):
    """The files of the C library's package, by their places from the crate's; or its exports alone."""
    structures, exports = structures_of(crate), exports_of(crate)
    text = written(crate, exports, structures)
    if place := crate.settings.get("exports"):
        return {place: text}
    version = crate.settings.get("version", "0.1.0")
    license_line = license_line.replace('license-file = "', 'license-file = "../')
    narrow = "" if crate.settings.get("usize_of_32_bits") else (
        "\n[features]\n# Says that you have checked every bound of the crate for a `usize` with 32 bits.\n"
        f'usize_of_32_bits = ["{crate.package}/usize_of_32_bits"]\n')
    words = {"name": crate.name, "version": version, "required": version.partition("+")[0], "package": crate.package, "rattle_c": rattle_c, "license": license_line,
             "features": narrow, "rust_version": crate.rust_version}
    return {"c/Cargo.toml": MANIFEST.format(**words), "c/src/lib.rs": ROOT.format(**words), "c/src/exports.rs": text,
            f"c/include/{crate.name}.h": header(crate, exports, structures), "c/README.md": README.format(**words)}
