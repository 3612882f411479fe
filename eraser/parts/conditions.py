"""What becomes of a `requires`: a line of documentation, and where Rust can say it, a check at the function's head.

A proof showed the condition at each call from verified code, and a caller in Rust isn't asked for one. So a public
function whose condition is understood here begins with a check of it, which is there with the feature `checked`. The calls
of erased code are those of the source: to send them past the check, the eraser would have to know what each name means.
"""

import re

from .known import OURS
from .tokens import END, tokens_of

COMPARED = {"<": "<", "≤": "<=", "≡": "==", "≢": "!="}
SUMS = {"+": "saturating_add", "-": "saturating_sub", "*": "saturating_mul"}
LARGEST = 2**127
# What a check of package.toml may have: methods of std that only read, and marks that can't panic.
READERS = {"contains", "ends_with", "first", "is_empty", "is_none", "is_some", "last", "len", "starts_with"}
MARKS = set("( ) , . .. ..= ! & && | || == != < <= > >= ::".split())


class Unknown(Exception):
    """The condition has a form that isn't understood."""


class Condition:
    """Reads a condition on the parameters of a function, whose types are given by name.

    Numbers of a condition don't wrap. So they are computed as `u128`, whose largest value stands for all that are too
    large: a parameter has at most 64 bits, or is compared as it is. `fields` has the type of each public field, by the
    structure and the field, and `measures` the method that computes a number of a value, by the type and the form of
    contracts, as `length (rest x)`.
    """

    def __init__(self, text, types, fields, measures):
        self.types, self.fields, self.measures, self.at = types, fields, measures, 0
        self.words = [token.text for token in tokens_of(text)] + ["", ""]

    def rust(self):
        conditions = [self.comparison()]
        while self.word() == "×":
            self.at += 1
            conditions.append(self.comparison())
        if self.word():
            raise Unknown
        return " && ".join(conditions)

    def word(self):
        return self.words[self.at]

    def take(self, word):
        if self.word() != word:
            raise Unknown
        self.at += 1

    def comparison(self):
        start = self.at
        if self.word() == "(":
            try:
                self.at += 1
                inner = self.comparison()
                self.take(")")
                if self.word() not in (*COMPARED, *SUMS, "^"):
                    return inner
            except Unknown:
                pass
            self.at = start
        left, compared = self.sum(), COMPARED.get(self.word())
        if not compared:
            raise Unknown
        self.at += 1
        return f"{left} {compared} {self.sum()}"

    def sum(self):
        return self.operands(("+", "-"), self.product)

    def product(self):
        value = self.operands(("*",), self.power)
        while self.word() in ("/", "%") and re.fullmatch(r"[1-9]\d*", self.words[self.at + 1]):
            value = f"({value} {self.word()} {self.words[self.at + 1]}u128)"
            self.at += 2
        return value

    def operands(self, signs, operand):
        value = operand()
        while self.word() in signs:
            sign = self.word()
            self.at += 1
            value = f"{value}.{SUMS[sign]}({operand()})"
        return value

    def power(self):
        """A number, or two to the power of one."""
        if self.word() == "2" and self.words[self.at + 1] == "^":
            self.at += 2
            exponent = self.word()
            if exponent == "(":
                return f"(if let exponent @ 0..=126 = {self.number()} {{ 1u128 << exponent }} else {{ u128::MAX }})"
            self.at += 1
            if not exponent.isdigit() or 2 ** int(exponent) > LARGEST:
                raise Unknown
            return f"(1u128 << {exponent})"
        return self.number()

    def number(self):
        word = self.word()
        self.at += 1
        if word.isdigit() and int(word) <= LARGEST:
            return f"{word}u128"
        if word == "(":
            value = self.sum()
            self.take(")")
            return f"({value})"
        if word == "length":
            return self.length()
        if word == "vec_len":
            return self.len_of(self.path(), ())
        if any(form == f"{word} x" for _, form in self.measures):
            return self.measured(f"{word} x")
        return self.integer(word)

    def path(self):
        """A parameter and the fields behind it."""
        parts = [self.word()]
        self.at += 1
        while self.word() == ".":
            parts.append(self.words[self.at + 1])
            self.at += 2
        return parts

    def length(self):
        if self.word() != "(":
            return self.len_of(self.path(), ("old", "now"))
        form = f"length ({self.words[self.at + 1]} x)"
        self.at += 2
        value = self.measured(form)
        self.take(")")
        return value

    def measured(self, form):
        """A number that a method of a parameter computes."""
        name, *fields = self.path()
        method = self.measures.get((re.sub(r"^&(?:mut)?", "", self.types.get(name, "")).split("<")[0], form))
        if not method or fields not in ([], ["old"], ["now"]):
            raise Unknown
        return f"({name}.{method}() as u128)"

    def resolved(self, path, moments):
        """The path as it is in Rust, and its type: a parameter, at some moment if it is a reference, and fields."""
        name, *fields = path
        of = self.types.get(name, "")
        for at, each in enumerate(fields):
            is_reference = of.startswith("&")
            if is_reference and each in moments:
                of = re.sub(r"^&(?:mut)?", "", of)
                continue
            of = "" if is_reference else self.fields.get((of.split("<")[0].rpartition("::")[2], each), "")
        return ".".join([name, *(each for each in fields if each not in moments)]), of

    def len_of(self, path, moments):
        if path[-1] == "items":
            path = path[:-1]
        value, of = self.resolved(path, moments)
        if not re.fullmatch(r"(?:&(?:mut)?)?\[[^;]*\]", of) and not of.startswith("Vec<"):
            raise Unknown
        return f"({value}.len() as u128)"

    def integer(self, word):
        self.at -= 1
        value, of = self.resolved(self.path(), ("old", "now"))
        if of not in {"u8", "u16", "u32", "u64", "usize"} or self.types.get(word, "").startswith("&") and "." not in value:
            raise Unknown
        return f"({value} as u128)"


def check_of(clause, types, source, is_const=False):
    """The clause as a condition in Rust, as package.toml has it or as it is understood here; else None. A constant function
    can't call any method."""
    crate = source.crate
    check = crate.settings.get("checks", {}).get(clause)
    if check:
        crate.used_checks.add(clause)
        if why := fault_of(check, clause, types, crate):
            source.fail(f"the check {check!r} of package.toml isn't known", why)
    try:
        check = check or Condition(clause, types, crate.names.types_of_fields(), crate.measures).rust()
    except Unknown:
        return None
    return None if is_const and re.search(r"\.(?!saturating_)\w+\(", check) else check


def fault_of(check, clause, types, crate):
    """Why a check of package.toml isn't taken: it only reads and compares the parameters that the clause names."""
    own = crate.names.methods | crate.names.trait_methods
    readers = READERS - own | set(crate.measures.values())
    tokens = tokens_of(check)[:-1]
    for before, token, after in zip([END, *tokens], tokens, [*tokens[1:], END]):
        is_macro = token.text == "matches" and after.text == "!" and "matches" not in crate.names.macros
        is_constant = token.text[0].isupper() and after.text not in ("(", "!")
        is_parameter = token.text in types and before.text != "." and after.text not in ("(", "!", "::")
        is_reader = token.text in readers and before.text == "." and after.text == "("
        if token.kind == "word" and not (is_macro or is_constant or is_parameter or is_reader):
            return f"it may have parameters, constants, `matches!`, and as methods those of `measures` and {', '.join(sorted(READERS - own))}"
        if token.kind not in ("word", "number", "char", "string") and token.text not in MARKS:
            return f"{token.text!r} isn't known there"
    if {each.text for each in tokens} & types.keys() != {each.text for each in tokens_of(clause)} & types.keys():
        return "it has to name the same parameters as the clause"
    return None


def checks_of(function, pad):
    """The lines at the head of a function's body that check its conditions."""
    lines = []
    for clause, check in function.checks:
        said = clause.replace("{", "{{").replace("}", "}}").replace('"', '\\"')
        lines += ['#[cfg(feature = "checked")]', f'::core::assert!({check}, "`{function.name}` requires `{said}`");']
    return "".join(f"\n{pad}    {line}" for line in lines)


def forward_of(header, pad, function):
    """The method under the name by which erased code calls it."""
    names = [words[words[0] == "mut"] for words in function.parameters[1:]]
    header = header.replace(f"fn {function.name}", f"fn {OURS}{function.name}", 1).strip()
    return (f"\n\n{pad}#[doc(hidden)]\n{pad}#[inline]\n{pad}{header} {{\n"
            f"{pad}    self.{function.name}({', '.join(names)})\n{pad}}}")


def types_of(parameters):
    """The types of parameters by name, blanks, lifetimes and `mut` before the name left out."""
    types = {}
    for words in parameters:
        words = words[1:] if words[0] == "mut" else words
        if len(words) > 2 and words[1] == ":":
            types[words[0]] = "".join(word for word in words[2:] if not word.startswith("'"))
    return types
