"""Which names a file may call and bring in: those of std that mean the same in Rust, and those of erased crates.

A method's name is looked up without the type of the receiver. So a name that a crate defines counts as known only if std
has no method of that name (std_names.txt lists them), or one that means the same on every type. If types of Rust's std alone
have it (with a `*` in the list), and the crate defines it for its own types alone, then no call that is proved can mean it.
This is also so if only traits have it that have to be imported (the list names them), and the crate names none of them.
"""

from . import known
from .known import FUNCTIONS, INSTEAD, INTEGERS, METHODS, OURS, OWN, PATHS, RENAMED, RENAMED_WITH_ARGUMENTS, WORDS

# Functions of a type that isn't a name, and what to write.
CONVERSIONS = {("<>", "try_from"): "write `x.try_into()`", ("<>", "from"): "write `x.into()`"}

# The trait that says as which values contracts see a type.
MODEL = "std::marker::Model"

# Words after which an expression begins: a `!` there is a negation, and no macro's.
KEYWORDS = set("as break continue else if in let match move mut ref return while".split())


def check(source, word):
    """Refuses the next word where it is a call, a macro or a path that isn't known."""
    before, after = source.word(-1), source.word(1)
    if after == "!" and source.word(2) in ("(", "[", "{") and before != "$" and word not in KEYWORDS:
        check_macro(source, word)
    elif before == "." and after in ("(", "::"):
        check_method(source, word)
    elif before == "::" and (after != "::" or source.word(2) == "<") and word[0].islower():
        check_function(source, word)
    elif word == "std" and after == "::":
        check_path(source)
    elif word == source.crate.name and after == "::" and word not in source.crate.names.modules:
        source.fail(f"the path {word}::{source.word(2)} isn't known", "write `crate::`")


def check_macro(source, word):
    if word not in known.MACROS | source.crate.names.macros:
        source.fail(f"the macro {word!r} isn't known")
    if word in source.crate.names.macros:
        return
    check_stop(source, word)
    if word in known.OWN_HOSTED_MACROS:
        source.host()
    if word in known.OWN_MACROS | known.OWN_HOSTED_MACROS:
        source.macros.add(word)


def check_stop(source, word):
    """Refuses a call that ends the program, but in tests."""
    if word in known.STOPPING and not source.in_tests:
        source.fail(f"{word!r} isn't known outside of tests", "it ends the program in another way in Rust: return an error. "
                    "A `#[test]` function has to be in a module for tests: `#[cfg(test)] mod tests { use super::*; .. }`")


def check_method(source, word):
    names = source.crate.names
    check_stop(source, word)
    if word in INSTEAD:
        source.fail(f"the method {word!r} isn't known", INSTEAD[word])
    if word in METHODS - (known.OTHERWISE_OF_IO if source.crate.names_io else set()) | OWN | RENAMED:
        return
    if word not in names.methods | names.trait_methods:
        source.fail(f"the method {word!r} isn't known", known.OTHERWISE)
    if may_be_of_std(source.crate, word):
        source.fail(f"the method {word!r} isn't known", "std has one of that name, which may be the one that is "
                    "called, and may mean another thing in Rust: rename yours, or call it by its path, as `Type::name(x)`")


def may_be_of_std(crate, word):
    """Whether a call of this method, which the crate defines, may mean the one of std."""
    traits = crate.std_names.get(word)
    if not traits or word in crate.names.methods_of_foreign_types():
        return traits is not None
    return traits != "*" and crate.names_any(traits)


def owner_of(source):
    """What is before the `::` of a function's path, generic arguments left out."""
    at = source.at - 2
    if source.tokens[at].text in (">", ">>"):
        depth = 0
        while at >= 0:
            depth += {">": 1, ">>": 2, "<": -1, "<<": -2}.get(source.tokens[at].text, 0)
            at -= 1
            if depth <= 0:
                break
        if source.tokens[at].text != "::":
            return "<>"
        at -= 1
    return source.tokens[at].text


def check_function(source, word):
    owner, names = owner_of(source), source.crate.names
    if word in METHODS:
        return
    if owner in INTEGERS:
        allowed = word in FUNCTIONS["INTEGER"]
    elif owner in FUNCTIONS:
        allowed = word in FUNCTIONS[owner]
    elif owner[:1].islower() and owner not in names.modules | {"self", "super", "crate"}:
        allowed = f"{owner}::{word}" in PATHS | known.HOSTED or owner in source.crate.dependencies
        if f"{owner}::{word}" in known.HOSTED:
            source.host()
    else:
        is_ours = owner in names.types | names.traits | names.modules | source.generic_names | {"self", "super", "crate", "Self", "<>"}
        allowed = is_ours and word in names.functions | names.methods | names.trait_methods | names.modules | known.DERIVED
        allowed = allowed and not (is_of_a_type(source, owner) and may_be_inherited(source, owner, word))
    if not allowed:
        source.fail(f"the function {owner}::{word} isn't known", CONVERSIONS.get((owner, word), known.OTHERWISE))


def is_of_a_type(source, owner):
    return owner in source.crate.names.types | source.crate.names.traits | source.generic_names | {"Self", "<>"}


def may_be_inherited(source, owner, word):
    """Whether a function of std that means another thing in Rust may be the one that a path names: its type or trait doesn't
    itself declare it."""
    names = source.crate.names
    owner = source.impl_type if owner == "Self" and source.impl_type else owner
    return (word in INSTEAD or word in source.crate.std_names) and (owner, word) not in names.declared | names.inherent


def allowed_path(path):
    """Whether a path of std is known, and whether it needs Rust's std."""
    whole = {path, path.rsplit("::", 1)[0] + "::*"}
    return bool(whole & (PATHS | known.HOSTED)), bool(whole & known.HOSTED)


def check_path(source):
    """Refuses a path of std in code that isn't known, up to its last segment or to one that is called."""
    parts, on = [], 2
    while source.tokens[source.at + on].kind == "word":
        parts.append(source.word(on))
        if source.word(on + 1) != "::":
            break
        on += 2
    for count in range(len(parts), 0, -1):
        is_known, needs_host = allowed_path("::".join(parts[:count]))
        if is_known and (count > 1 or len(parts) == 1):
            if needs_host:
                source.host()
            return
    source.fail(f"the path std::{'::'.join(parts)} isn't known", known.MODULES.get(parts[0] if parts else ""))


def use(source):
    """Writes a `use`, whose leaves are known. `Model`, which only contracts use, is left out."""
    if source.begins(f"use {MODEL.replace('::', ' :: ')} ;"):
        return source.drop(7)
    end = source.at
    while source.tokens[end].text != ";":
        end += 1
    paths = leaves([token.text for token in source.tokens[source.at + 1 : end]])
    for path in paths:
        if path == MODEL:
            source.fail(f"{MODEL} among other names isn't known", f"write `use {MODEL};` on a line of its own")
        check_leaf(source, path)
    return source.take_plain(end + 1 - source.at)


def leaves(words):
    """The paths that a tree of `use` names, without what `as` calls them."""
    paths, prefix, stack, at = [], [], [], 0
    path = []
    while at < len(words):
        word = words[at]
        if word == "{":
            stack.append((prefix, len(paths)))
            prefix, path = prefix + path, []
        elif word in (",", "}"):
            if path:
                paths.append("::".join(prefix + path))
            path = []
            if word == "}":
                prefix = stack.pop()[0]
        elif word == "as":
            at += 1
        elif word != "::":
            path.append(word)
        at += 1
    return paths + (["::".join(prefix + path)] if path else [])


def check_leaf(source, path):
    first, _, rest = path.partition("::")
    if first == source.crate.name and first not in source.crate.names.modules:
        source.fail(f"the path {path} isn't known", "write `crate::`")
    if first != "std":
        if first in ("core", "alloc"):
            source.fail(f"the path {path} isn't known", "write `std::`")
        return
    rest = rest.removesuffix("::self")
    name = rest.rpartition("::")[2]
    if name in WORDS:
        source.fail(f"{name!r} isn't known", WORDS[name])
    is_known, needs_host = allowed_path(rest)
    if not is_known or rest.endswith("*"):
        source.fail(f"the path {path} isn't known", known.MODULES.get(rest.split("::")[0]))
    if needs_host:
        source.host()


def written(source, word):
    """The word as it is in Rust: the method that is called has another name in rattle_std."""
    is_called = source.word(1) == "(" or source.word(1) == "::" and source.word(2) == "<"
    if source.word(-1) != "." or not is_called or word in RENAMED_WITH_ARGUMENTS and source.word(2) == ")":
        return word
    return OURS + word if word in RENAMED else word


def check_impl(source):
    """Refuses an impl that Rust might pass over where Rattle picks it: one for every type, or for a reference to one."""
    if source.word() != "impl" or source.word(1) != "<":
        return
    end = source.angles(1)
    parameters = {token.text for token in source.tokens[source.at + 2 : source.at + end - 1] if token.kind == "word"}
    words = [token.text for token in source.tokens[source.at + end : source.at + end + 60]]
    words = words[: words.index("{")] if "{" in words else words
    of = words[words.index("for") + 1 :] if "for" in words else words
    if of and of[0] in parameters and (len(of) == 1 or of[1] == "where"):
        source.fail("an impl for every type isn't known", "write an impl for each type")
    if any(words[at] in ("Index", "IndexMut") and words[at + 2] in parameters for at in range(len(words) - 2)):
        source.fail("an index of any type isn't known", "name the type of the index")
    for at, word in enumerate(of[:-1]):
        if word == "&" and (of[at + 1] in parameters or of[at + 2 : at + 3] and of[at + 2] in parameters
                            and (of[at + 1].startswith("'") or of[at + 1] == "mut")):
            source.fail("an impl for a reference to any type isn't known", "write an impl for each type")


__all__ = ["check", "check_impl", "use", "written", "WORDS"]
