"""Erases the crates that are named, in the order of their dependencies, and writes or compares their packages."""

import functools
import os
import re
import subprocess
import tomllib
from pathlib import Path

from . import c_header, c_library, forwards, package
from .crate import Crate, listed_crates, measures_of
from .known import OURS
from .names import Names, names_of
from .source import Refused

KIT = re.compile(r'(?m)(^\[package\.metadata\.rattle\]\ncrate = "\w+"\n)kit = "[^"\n]*"\n')


def erased(top, to, over, names):
    """The files of each package, by its folder: {folder: {place: text}}."""
    listed = listed_crates(top)
    chosen = names or sorted(place.parent.name for place in to.glob("*/Cargo.toml") if is_erased(place.parent, place.parent.name))
    if not chosen:
        raise Refused("name the crates that are to be erased")
    crates, packages = {}, {}
    for name in in_order(chosen, listed):
        if (to / name / "Cargo.toml").exists() and not is_erased(to / name, name):
            raise Refused(f"{to / name} has another package, which would be overwritten: name another folder by --to")
        known, measures = Names(), {}
        for each in all_below(name, listed):
            if each in crates:
                known.add(crates[each].own_names)
                measures |= crates[each].measures
            else:
                folder = folder_of(each, to, over)
                known.add(names_of_package(folder))
                measures |= measures_of(read_manifest(folder)["package"]["metadata"]["rattle"])
        crates[name] = Crate(top, name, listed[name], known, measures)
        texts = crates[name].erase()
        packages[to / name] = files_of(crates[name], texts, crates, to, over)
    return packages


def in_order(names, listed):
    """The crates, each behind those that it depends on."""
    ordered = []

    def visit(name):
        if name not in listed:
            raise Refused(f"crates.txt has no crate {name!r}")
        if name.startswith(OURS):
            raise Refused(f"the crate {name!r} has the name of a package of rust/: rename yours")
        for each in listed[name].dependencies:
            if each in names:
                visit(each)
        if name not in ordered:
            ordered.append(name)
    for name in names:
        visit(name)
    return ordered


def all_below(name, listed):
    """All crates that a crate depends on, directly or not, of the repository."""
    found = []
    for each in listed[name].dependencies:
        for below in [*(all_below(each, listed) if each in listed else []), each]:
            if below not in found:
                found.append(below)
    return found


def folder_of(name, to, over):
    """The folder of a package that was erased before."""
    present = [folder for folder in (to / name, over / name) if (folder / "Cargo.toml").exists()]
    for folder in present:
        if is_erased(folder, name):
            return folder
    for folder in present:
        raise Refused(f"{folder} has another package, which isn't the erased crate {name!r}: name the folder of the erased "
                      "packages by --over")
    raise Refused(f"the crate {name!r} isn't erased: name it too, or erase it first; a crate of the kit can't be")


def is_erased(folder, name):
    """Whether a folder has the package of this crate, and not another one."""
    return read_manifest(folder)["package"].get("metadata", {}).get("rattle", {}).get("crate") == name


def names_of_package(folder):
    """The names that an erased package defines."""
    names = Names()
    for path in (folder / "src").rglob("*.rs"):
        names.add(names_of(path.read_text()))
    return names


def files_of(crate, texts, crates, to, over):
    """All files of a package."""
    places = {each: (path_to(over.parent / each, to / crate.name), version_of(over.parent / each)) for each in ("rattle_std", "rattle_host", "rattle_c")}
    for each in crate.dependencies:
        folder = to / each if each in crates else folder_of(each, to, over)
        version = crates[each].settings.get("version", "0.1.0") if each in crates else version_of(folder)
        places[each] = (path_to(folder, to / crate.name), version)
        places[each, "package"] = crates[each].package if each in crates else read_manifest(folder)["package"]["name"]
    files = {place: package.with_head(crate, place, text, crate.prelude_of(place)) for place, text in texts.items()}
    files["Cargo.toml"] = package.manifest(crate, places, license_of(crate, to), kit())
    if not is_left_alone(to):
        files["rustfmt.toml"] = "# The eraser alone writes the sources.\ndisable_all_formatting = true\n"
    files["README.md"] = package.readme(crate, crate.functions())
    files |= forwards.written(crate) | c_header.written(crate, to / crate.name)
    if crate.exports:
        place = os.path.relpath(over.parent / "rattle_c", to / crate.name / "c")
        rattle_c = f'path = "{place}", version = "{version_of(over.parent / "rattle_c")}"'
        files |= c_library.package(crate, rattle_c, license_of(crate, to))
    return files


def is_left_alone(folder):
    """Whether rustfmt changes nothing in a folder, by the nearest rustfmt.toml above it."""
    above = next((it / "rustfmt.toml" for it in folder.resolve().parents if (it / "rustfmt.toml").exists()), None)
    return above is not None and "disable_all_formatting = true" in above.read_text()


def path_to(folder, package_folder):
    return f'path = "{os.path.relpath(folder, package_folder)}"'


def read_manifest(folder):
    return tomllib.loads((folder / "Cargo.toml").read_text())


def version_of(folder):
    return read_manifest(folder)["package"]["version"]


def license_of(crate, to):
    """The license of the repository: by its name in package.toml, or its file."""
    if named := crate.settings.get("license"):
        return f'license = "{named}"'
    if (crate.top / "LICENSE").exists():
        return f'license-file = "{os.path.relpath(crate.top / "LICENSE", to / crate.name)}"'
    return "publish = false"


@functools.cache
def kit():
    """The kit's line, if it is at hand."""
    try:
        return subprocess.run(["rt", "version"], capture_output=True, text=True).stdout.strip() or "unknown"
    except OSError:
        return "unknown"


def write(packages, only_check):
    """Writes the packages, or says what differs. Returns the exit status."""
    passed = failed = 0
    for folder, files in packages.items():
        present = {path.relative_to(folder).as_posix(): path for path in folder.rglob("*") if not path.is_dir() and is_ours(path, folder)}
        present |= {place: folder / place for place in files if place.startswith("..") and (folder / place).exists()}
        differing = {place for place in files.keys() | present.keys()
                     if place not in files or place not in present or not same(files[place], present[place].read_bytes(), only_check)}
        foreign = {place for place in differing - files.keys() if not place.endswith((".rs", ".md", ".h"))}
        for place in sorted(foreign):
            print(f"{os.path.relpath(folder / place)} has no source: remove it")
        for place in sorted(differing - foreign):
            print(f"{os.path.relpath(folder / place)} {'is not' if only_check else 'now is'} what is erased from the sources")
            if not only_check:
                update(folder / place, files.get(place))
        passed, failed = passed + len(files.keys() - differing), failed + len(differing if only_check else foreign)
    if failed and only_check:
        print("erase: call tools/erase without --check, which writes these files, and commit them")
    print(f"{passed} passed, {failed} failed" if only_check else f"{passed} files are as they were")
    return int(failed > 0 or passed == 0 and only_check)


def is_ours(path, folder):
    """Whether a file is one that cargo doesn't write: cargo may read every other one, such as `build.rs` or `.cargo/config.toml`."""
    return not {folder / "target", folder / "c/target"} & {*path.parents} and path.name != "Cargo.lock"


def same(text, data, only_check):
    """Whether two files are equal. A check passes over the line of the kit, and nothing replaces its name if there is no kit."""
    try:
        present = data.decode()
    except UnicodeDecodeError:
        return False
    return text == present or (only_check or kit() == "unknown") and KIT.sub(r"\1", text) == KIT.sub(r"\1", present)


def update(path, text):
    if text is None:
        path.unlink()
        return
    path.parent.mkdir(parents=True, exist_ok=True)
    path.write_text(text)


__all__ = ["Path", "erased", "write"]
