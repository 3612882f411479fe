"""The examples of doc comments, which rustdoc runs if package.toml names the crates whose items they use."""

import re

EXAMPLE = re.compile(r"(?m)^( *//[/!]) ```\n((?: *//[/!](?! ```).*\n)*) *//[/!] ```$")
# Rust compares a slice with an array as it is.
COMPARED = re.compile(r'(?m)^(assert_eq!\(.*, (?:\[[^\]]*\]|b"[^"]*"))\.as_slice\(\)\);$')


def written(comments, uses):
    """Comments with their examples as rustdoc runs them, or as plain text if `uses` is None."""
    return EXAMPLE.sub(lambda found: plain(*found.groups()) if uses is None else run(*found.groups(), uses), comments)


def plain(mark, lines):
    return f"{mark} ```text\n{lines}{mark} ```"


def run(mark, lines, uses):
    """An example that begins and ends with lines that rustdoc hides: what it uses, and the error that it may return."""
    code = COMPARED.sub(r"\1);", re.sub(r"(?m)^ *//[/!] ?", "", lines))
    hidden = [f"# use {each}::*;" for each in uses]
    if re.search(r"\balloc\b", code):
        hidden.append("# let alloc = rattle_std::alloc::Global;")
    result = ["# Ok::<(), Box<dyn core::error::Error>>(())"] if "?" in code else []
    return "\n".join(f"{mark} {line}".rstrip() for line in ["```", *hidden, *code.splitlines(), *result, "```"])


__all__ = ["EXAMPLE", "run", "written"]
