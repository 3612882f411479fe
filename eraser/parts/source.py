"""Erases one file: reads its items and writes them as Rust, without contracts and ghost code."""

import re
from dataclasses import dataclass, field

from . import calls, conditions
from .known import ATTRIBUTES, DERIVES, GONE_ATTRIBUTES, HOSTED_NAMES, OURS, RANGE_TAKERS, RENAMED, REPRS, WORDS
from .names import angles_end
from .tokens import CLOSE, END, OPEN, tokens_of

EXPORT = "unsafe(no_mangle)"
COMMENTS_OF_LOGIC = {"--", "{-", "-}"}
EXPRESSION_ENDS = {"word", "number", "string", "char"}
# The comments before an item, its indentation, and the rest.
LEADING = re.compile(r"((?:[ \t]*(?://[^\n]*)?\n)*)([ \t]*)(.*)", re.S)


class Refused(Exception):
    """The text has something that the eraser doesn't know."""


@dataclass
class Function:
    """A function that was read: where it is, its parameters, the type whose method it is, its conditions with their checks in
    Rust, or None, and what it ensures."""

    name: str
    line: int
    is_public: bool
    parameters: list
    generics: list
    is_checked: bool
    of: str = ""
    conditions: list = field(default_factory=list)
    promises: list = field(default_factory=list)
    result: str | None = None
    documentation: str = ""
    header: str = ""
    impl_head: str | None = None

    @property
    def is_method(self):
        return bool(self.parameters) and "self" in self.parameters[0]

    def typed(self):
        """The parameters, each as its name and its type without blanks."""
        return [(words[0], "".join(words[2:])) for words in self.parameters]

    @property
    def checks(self):
        return [(clause, check) for clause, check in self.conditions if check and self.is_checked]


class Source:
    """A file that is read token by token; `at` is the place of the next, and `out` what was written."""

    def __init__(self, path, text, crate, in_tests):
        self.path, self.text, self.crate, self.in_tests = path, text, crate, in_tests
        self.tokens = tokens_of(text) + [END] * 8
        self.at, self.out, self.stack = 0, [], []
        if "\r" in text:
            line = 1 + text.count("\n", 0, text.index("\r"))
            raise Refused(f"{path}:{line}: a carriage return isn't known: Rust leaves it out before a line feed: write `\\r`")
        for one, other in zip(self.tokens, self.tokens[1:]):
            if one.text + other.text in COMMENTS_OF_LOGIC and not other.before:
                line = 1 + text.count("\n", 0, one.at)
                raise Refused(f"{path}:{line}: `{one.text}{other.text}` begins or ends a comment in a contract, and such comments "
                              "aren't known: write `//` before the clause, and a blank between two signs in code")
        if ours := next((each for each in self.tokens if each.text.startswith(OURS)), None):
            line = 1 + text.count("\n", 0, ours.at)
            raise Refused(f"{path}:{line}: the name {ours.text!r} isn't known: names that begin with `{OURS}` are those of rattle_std: "
                          "rename yours")
        self.refuse_in_contracts()
        self.generic_names = generics_of(self.tokens)
        self.functions, self.exports, self.macros = [], [], set()
        self.needs_host = self.has_chain = False
        self.structures, self.invariants, self.errors = [], None, []
        self.impl_type, self.impl_head, self.formatter, self.documentation = None, None, None, ""

    # Reading.

    def fail(self, what, instead=None, at=None):
        line = 1 + self.text.count("\n", 0, self.tokens[self.at if at is None else at].at)
        raise Refused(f"{self.path}:{line}: {what}" + (f": {instead}" if instead else ""))

    def word(self, on=0):
        return self.tokens[self.at + on].text if self.at + on >= 0 else ""

    def words(self, count):
        return [token.text for token in self.tokens[self.at : self.at + count]]

    def begins(self, text):
        """Whether the next tokens are these, parted by blanks."""
        wanted = text.split()
        return self.words(len(wanted)) == wanted

    def group(self, at=0, opens="([{"):
        """How many tokens there are to the end of the group that begins so many tokens further."""
        if self.word(at) not in opens or not self.word(at):
            self.fail(f"one of {opens} is expected here, not {self.word(at)!r}")
        depth, end = 1, at + 1
        while depth:
            word = self.word(end) or self.fail("this bracket isn't closed")
            depth += (word in OPEN) - (word in CLOSE)
            end += 1
        return end

    def angles(self, at):
        """How many tokens there are to the end of the angle brackets that begin so many tokens further."""
        depth, end = 0, at
        while True:
            word = self.word(end)
            if word in OPEN:
                end = self.group(end)
                continue
            depth += {"<": 1, "<<": 2, ">": -1, ">>": -2}.get(word, 0)
            end += 1
            if depth <= 0:
                return end
            if word in ("", ";") or word in CLOSE:
                self.fail("this angle bracket isn't closed")

    # Writing.

    def emit(self, text, count=1):
        """Writes a text in place of so many tokens, behind the comments before them."""
        self.out.append(self.tokens[self.at].before + text)
        self.at += count

    def drop(self, count):
        """Leaves tokens out, and keeps the comments before them, which end with their line."""
        before = self.tokens[self.at].before
        self.at += count
        ends = "" if self.tokens[self.at].before.startswith("\n") else "\n"
        self.out.append(before.rstrip() + ends if "//" in before else "\n" * (before.count("\n") - 1))

    def joined(self, parts):
        """The parts as one text, in which no token runs into another one or into a comment."""
        text = "".join(parts)
        if [each.text for each in tokens_of(text)] != [each.text for part in parts for each in tokens_of(part)[:-1]] + [""]:
            raise Refused(f"{self.path}: tokens of this file run together: begin a line behind each comment")
        return text

    def take_plain(self, count):
        """Writes so many tokens as they are."""
        for _ in range(count):
            self.emit(self.word())

    # Tokens.

    def take(self):
        """Writes the next token, or what becomes of it in Rust."""
        token, word = self.tokens[self.at], self.word()
        if token.kind == "none":
            self.fail(f"{word!r} begins no token of Rust")
        if word in ("requires", "ensures", "ghost", "Drop") and self.in_macro():
            self.fail(f"{word!r} in a macro isn't known", "it may decide which rule of the macro is taken: write it outside of the macro")
        if word in ("requires", "ensures") and token.kind == "word":
            return self.skip_clauses()
        if word == "ghost" or self.is_public_ghost():
            return self.ghost()
        if word == "Drop":
            return self.drop_bound()
        if token.kind == "number":
            self.check_number()
        elif word == "..":
            self.check_range()
        elif token.kind == "word":
            self.check_word(word)
        if self.formatter and self.begins(f"Formatter < {self.formatter} >"):
            return self.emit("Formatter<'_>", 4)
        if self.formatter == word:
            self.fail("a function that is generic over a formatter's sink uses it for the formatter alone",
                      "take `f: &mut fmt::Formatter<W>` and nothing else of `W`")
        return self.emit(calls.written(self, word) if token.kind == "word" else word)

    def in_macro(self):
        """Whether the place is in a call or in the rules of a macro of the crate."""
        return any(opened in ("macro", "rules") for opened, _ in self.stack)

    def check_number(self):
        """A number that goes on with a point or a letter is a float."""
        token, then, behind = self.tokens[self.at : self.at + 3]
        is_field = self.word(-1) == "."
        if then.before or then.kind != "word" and (then.text != "." or is_field or behind.kind == "word"):
            return
        digits = behind.text if then.text == "." and behind.kind == "number" and not behind.before else ""
        self.fail(f"{token.text}{then.text}{digits} isn't known", "integers alone are known")

    def ends_expression(self, on):
        token = self.tokens[self.at + on] if self.at + on >= 0 else END
        return token.text in (")", "]", "?") or token.kind in EXPRESSION_ENDS and token.text not in calls.KEYWORDS

    def check_range(self):
        """A range with no end ends before its type's largest value in Rattle, and overflows in Rust; it may be an index alone."""
        has_start, then = self.ends_expression(-1), self.word(1)
        has_end = then not in (")", "]", "}", ",", ";", "=>", "{", "=", "")
        is_index = then in ("]", ")", ",") and self.stack and self.stack[-1][0] == "index"
        in_call = any(opened == "macro" for opened, _ in self.stack)
        if has_start and not has_end and (in_call or not is_index and not self.is_pattern()):
            self.fail("a range with no end ends before the type's largest value in Rattle, and goes past it in Rust",
                      "write the end, as `a..u8::MAX`")
        if not has_start and has_end and self.stack and self.stack[-1][0] == "{":
            self.fail("`..` before an expression in braces isn't known", "write every field of the struct")

    def is_pattern(self):
        """Whether the place is in a pattern: behind it, and behind the groups around it, comes what follows a pattern."""
        at = self.at + 1
        for opened, end in reversed(self.stack):
            if self.tokens[at].text == "=" or self.leads_to_arm(at):
                return True
            if opened == "{":
                return False
            at = end
        return False

    def leads_to_arm(self, at):
        """Whether `=>` comes next, or behind other patterns and a guard."""
        if self.tokens[at].text not in ("=>", "|", "if"):
            return False
        while self.tokens[at].text not in ("=>", ",", ";", "{", "}", ")", "]", ""):
            at += self.group(at - self.at) - (at - self.at) if self.tokens[at].text in OPEN else 1
        return self.tokens[at].text == "=>"

    def check_word(self, word):
        before, after = self.word(-1), self.word(1)
        if before == "fn" and word in RENAMED and self.stack:
            self.fail(f"a function {word!r} within a body or a macro isn't known", "std has one that allocates: rename yours")
        if word in WORDS and not (before in (".", "::") and after in ("(", "::")) and before != "fn":
            self.fail(f"{word!r} isn't known", WORDS[word])
        if self.tokens[self.at + 1].kind == "string" and not self.tokens[self.at + 1].before:
            self.fail(f"a string with the prefix {word!r} isn't known")
        if word == "stmt" and before == ":" and self.word(-3) == "$":
            self.fail("the fragment 'stmt' isn't known", "a block that ends in it may have another value in Rust: write `expr`")
        if before == "$":
            self.check_fragment(word)
        if word in HOSTED_NAMES:
            self.host()
        if word == "where":
            self.check_where()
        if word == "mod" and self.stack:
            self.fail("a module within a body isn't known", "write it beside the function")
        if word == "let" and self.is_chained():
            self.has_chain = True
        calls.check(self, word)

    def check_fragment(self, word):
        """Refuses what a macro is given in the place of the name of a method, a function, a module or a macro."""
        if self.word(-2) in (".", "::", "fn") or self.word(1) in ("!", "::") and word != "crate":
            self.fail(f"the name ${word} isn't known here", "what it means shows only where the macro is called: write the name")
        if self.word(1) == ":" and self.word(2) == "tt":
            self.fail("the fragment 'tt' isn't known", "a name may mean another thing beside other tokens: write `expr` or `ident`")

    def check_rules(self):
        """Refuses a point in a pattern of the macro whose rules come next: what the eraser renames follows one."""
        at, end = 1, self.group()
        while at < end - 1:
            behind = self.group(at) if self.word(at) in OPEN else at + 1
            if self.word(behind) == "=>" and "." in self.words(behind)[at:]:
                self.fail("a point in a macro's pattern isn't known", "write another mark", at=self.at + at)
            at = behind

    def is_chained(self):
        """Whether the `let` that comes next is one of several conditions."""
        if self.word(-1) not in ("if", "while"):
            return self.word(-1) == "&&"
        on = 1
        while self.word(on) not in ("=", ""):
            on = self.group(on) if self.word(on) in OPEN else on + 1
        while self.word(on) not in ("{", ""):
            if self.word(on) == "&&" and self.ends_expression(on - 1):
                return True
            on = self.group(on) if self.word(on) in OPEN else on + 1
        return False

    def host(self):
        """Notes that the text needs Rust's std."""
        self.needs_host = self.needs_host or not self.in_tests

    def drop_bound(self):
        """Leaves out `Drop` as a bound: in Rust every value may be dropped."""
        before, after = self.word(-1), self.word(1)
        if before not in (":", "+") or self.word(2) == "{" and before == ":" and after == "for":
            self.fail("'Drop' isn't known", WORDS["Drop"])
        if after == "+":
            self.at += 2
        else:
            self.out.pop()
            self.at += 1

    def check_where(self):
        """Refuses a predicate of the `where` that comes next whose only bound is `Drop`."""
        on = 1
        while self.word(on) not in ("{", ";", "requires", "ensures", ""):
            if [self.word(on), self.word(on + 1)] == [":", "Drop"] and self.word(on + 2) != "+":
                self.fail("'Drop' as the only bound in a `where` isn't known", "write it where the parameter is declared")
            on += 1

    def skip_clauses(self):
        """Leaves out clauses: of a function, or of a closure, whose body follows."""
        while self.word() in ("requires", "ensures"):
            self.skip_clause()
        if self.word() == "{":
            self.out.append(" ")
            self.tokens[self.at] = self.tokens[self.at]._replace(before="")

    def skip_clause(self):
        """Leaves out one clause, and returns its text."""
        self.at += 1
        while self.word() == "*" or self.tokens[self.at].kind == "word":
            self.at += 1
        end = self.at + self.group(0, "{")
        text = self.text[self.tokens[self.at].at + 1 : self.tokens[end - 1].at]
        self.at = end
        return " ".join(re.sub(r"//[^\n]*", "", text).split())

    def take_until(self, *ends):
        while self.word() not in ends:
            if not self.word():
                self.fail(f"one of {' '.join(ends)} is expected")
            self.take_group() if self.word() in OPEN else self.take()
            if self.word() in CLOSE and self.word() not in ends:
                self.fail(f"one of {' '.join(ends)} is expected")

    def takes_place(self):
        """Whether the parenthesis has the arguments of a method of std for which a range is a place in a list."""
        names = self.crate.names
        return (self.word(-2) == "." and self.word() == "("
                and self.word(-1) in RANGE_TAKERS - names.methods - names.trait_methods)

    def take_group(self):
        """Writes a group in brackets, in which there may be attributes, and ghost fields."""
        end = self.at + self.group()
        is_index = self.ends_expression(-1) and self.word(-2) != "$" if self.word() == "[" else self.takes_place()
        is_rules = self.word(-3) == "macro_rules"
        if is_rules:
            self.check_rules()
        is_call = self.word(-1) == "!" and self.word(-2) in self.crate.names.macros
        self.stack.append(("rules" if is_rules else "macro" if is_call else "index" if is_index else self.word(), end))
        self.take()
        while self.at < end - 1:
            if self.word() in OPEN:
                self.take_group()
            elif self.word() == "#" and self.word(1) in ("[", "!"):
                self.attribute()
            else:
                self.take()
        self.stack.pop()
        self.take()

    # Attributes and ghost code.

    def attribute(self):
        """Writes an attribute, or leaves it out, and returns its text."""
        inner = self.word(1) == "!"
        count = self.group(1 + inner, "[")
        text = "".join(self.words(count)[2 + inner : -1])
        name = text if text == EXPORT else re.match(r"\w*", text).group()
        if self.in_macro() and (name in GONE_ATTRIBUTES or "Drop" in text):
            self.fail(f"the attribute {text!r} in a macro isn't known", "it may decide which rule of the macro is taken")
        if name in GONE_ATTRIBUTES or name == EXPORT:
            self.drop(count)
        elif name == "derive":
            self.derive(text, count)
        elif name not in ATTRIBUTES or inner and name != "allow":
            self.fail(f"the attribute {name!r} isn't known")
        elif name == "cfg" and text != "cfg(test)":
            self.fail(f"the attribute {text!r} isn't known", "choose one configuration")
        elif name == "repr" and text[5:-1] not in REPRS:
            self.fail(f"the attribute {text!r} isn't known")
        else:
            self.emit("".join(token.before * (n > 0) + token.text
                              for n, token in enumerate(self.tokens[self.at : self.at + count])), count)
        return text

    def derive(self, text, count):
        derives = [each for each in text[7:-1].split(",") if each]
        if unknown := set(derives) - DERIVES - {"Drop"}:
            self.fail(f"a derive of {' and '.join(sorted(unknown))} isn't known", "write the impl")
        if "Clone" in derives and "Copy" not in derives:
            self.fail("a derive of 'Clone' without 'Copy' isn't known",
                      "in Rattle `clone` returns a `Result`, and in Rust it can't fail: derive both, or neither")
        kept = [each for each in derives if each != "Drop"]
        last = "," if text[7:-1].endswith(",") else ""
        self.emit(f"#[derive({', '.join(kept)}{last})]", count) if kept else self.drop(count)

    def is_public_ghost(self):
        """Whether a ghost item or field with a visibility comes next."""
        return self.word() == "pub" and self.word(self.group(1) if self.word(1) == "(" else 1) == "ghost"

    def ghost(self):
        """Leaves out a ghost item or field and its doc comment, but not the file's."""
        self.out += re.findall(r"(?m)^//!.*\n", self.tokens[self.at].before)
        if self.word() == "pub":
            self.at += self.group(1) if self.word(1) == "(" else 1
        start = self.at
        if self.word(1) == "use":
            while self.word() != ";":
                self.at += 1
        else:
            self.at += 2
            while self.word() in (":", "=", "by"):
                self.at += self.group(1, "{")
        self.note_invariant(start)
        if self.word() == "}" and self.invariants is not None:
            return
        if self.word() not in (";", ","):
            self.fail("this ghost item isn't known", at=start)
        self.at += 1

    def note_invariant(self, start):
        """Notes what a ghost field says of the structure that is read."""
        if self.invariants is not None and self.word(start - self.at + 2) == ":":
            end = start + 3 + self.group(start - self.at + 3) - (start - self.at + 3)
            text = self.text[self.tokens[start + 3].at + 1 : self.tokens[end - 1].at]
            self.invariants.append(" ".join(re.sub(r"//[^\n]*", "", text).split()))

    def refuse_in_contracts(self):
        """Refuses what ends elsewhere in a contract for Rattle: there `//` and an apostrophe may be parts of a name."""
        depth, begun = 0, False
        for each in self.tokens:
            if depth and ("//" in each.before or each.kind == "char"):
                line = 1 + self.text.count("\n", 0, each.at)
                raise Refused(f"{self.path}:{line}: a comment or a character within a contract isn't known: Rattle reads `//` and "
                              "an apostrophe there as parts of a name")
            depth += each.text == "{" and (depth > 0 or begun)
            depth -= each.text == "}" and depth > 0
            begun = each.text in ("ensures", "requires", "ghost") or begun and each.text not in (";", "{", "}", ",")

    # Items.

    def items(self, *ends):
        """Writes items to one of these ends. What is refused of one is noted, and the next is read."""
        while self.word() not in ends:
            start, written, stack = self.at, len(self.out), list(self.stack)
            try:
                self.word() or self.fail("this block isn't closed")
                self.item()
            except Refused as why:
                self.errors.append(str(why))
                self.at, self.stack, self.invariants, self.formatter = start, stack, None, None
                del self.out[written:]
                self.skip_item()
                self.at += self.at == start

    def skip_item(self):
        """Goes past an item that is refused."""
        while self.word() not in ("{", ";", "}", ""):
            self.at += self.group() if self.word() in OPEN else 1
        while self.word() in ("{", "requires", "ensures"):
            while self.word() not in ("{", ""):
                self.at += 1
            self.at += self.group()
        self.at += self.word() == ";"

    def item(self):
        if self.word() == "ghost" or self.is_public_ghost():
            return self.ghost()
        self.documentation = "".join(re.findall(r"(?m)^ *///[^\n]*\n", self.tokens[self.at].before))
        attributes, begin = [], len(self.out)
        while self.word() == "#":
            attributes.append(self.attribute())
        if self.word() in ("", "ghost"):
            return None
        start, is_public = len(self.out), self.word() == "pub" and self.word(1) != "("
        self.visibility()
        if "derived" in attributes:
            self.fail("the attribute 'derived' isn't known")
        if self.word() == "final":
            before = self.tokens[self.at].before
            self.at += 1
            self.tokens[self.at] = self.tokens[self.at]._replace(before=before)
        if self.word() == "fn" or self.begins("const fn") or EXPORT in attributes:
            return self.function(begin, start, attributes, is_public)
        return self.other_item(attributes, begin)

    def visibility(self):
        if self.word() == "pub":
            self.take()
            if self.word() == "(":
                self.take_group()
        elif self.word() == "mod" and self.crate.exports and self.path.name == "lib.rt" and self.word(2) == ";":
            # The C library, a package of its own, calls the functions of these modules.
            self.emit("pub mod")
            self.tokens[self.at - 1] = self.tokens[self.at - 1]._replace(text="mod")

    def other_item(self, attributes, start):
        word = self.word(-1) if self.word(-1) == "mod" and self.word(1) in ("{", ";") else self.word()
        if word == "use":
            return calls.use(self)
        if word == "mod":
            return self.module(attributes)
        if word in ("type", "static", "const"):
            self.take_until(";")
            return self.take()
        if word in ("struct", "enum", "macro_rules"):
            return self.type_item(word, start)
        if word == "impl" and self.is_model():
            return self.model()
        if word in ("trait", "impl"):
            return self.block()
        if self.word(1) == "!" and word in self.crate.names.macros:
            return self.macro_item()
        return self.fail(f"no item is known that begins with {word!r}")

    def type_item(self, word, start):
        """Writes a structure, an enum or a macro, with what the ghost fields of a structure say of it."""
        name, self.invariants = self.word(1), [] if word == "struct" else None
        self.take_until("{", ";", "(", *["["] * (word == "macro_rules"))
        if self.word() != ";":
            self.take_group()
        if word == "struct" and self.word(-1) == ")" or word == "macro_rules" and self.word() == ";":
            self.take_until(";")
        if self.word() == ";":
            self.take()
        if self.invariants:
            self.document(start, ["///", "/// # Invariant", "///", *(f"/// - `{each}`" for each in self.invariants)])
            is_open = re.search(r"(?m)[({,]\s*(?:///.*\s*)*pub ", "".join(self.out[start:]).partition(name)[2]) is not None
            self.structures.append((name, self.invariants, is_open))
        self.invariants = None

    def document(self, start, lines):
        """Puts lines behind the doc comment of the item whose first token is the one of `out` at `start`."""
        before, pad, rest = LEADING.fullmatch(self.joined(self.out[start:])).groups()
        lines = lines if "///" in before else lines[1:]
        self.out[start:] = [before + "".join(f"{pad}{each}\n" for each in lines) + pad + rest]

    def macro_item(self):
        self.take()
        self.take()
        self.take_group()
        if self.word() == ";":
            self.take()

    def module(self, attributes):
        """Writes a module: `mod` of a file, or one whose items are here."""
        was, self.in_tests = self.in_tests, self.in_tests or "cfg(test)" in attributes
        self.take_until("{", ";")
        if self.word() == ";":
            self.in_tests = was
            return self.take()
        self.take()
        place, macros, self.macros = len(self.out), self.macros, set()
        self.items("}")
        self.out.insert(place, prelude(self.macros, self.in_tests or self.crate.is_hosted, "    "))
        self.in_tests, self.macros = was, macros
        return self.take()

    def is_model(self):
        """Whether the next item says as which values contracts see a type."""
        words = [token.text for token in self.tokens[self.at + 1 :]]
        at = angles_end(words, 0) if words[0] == "<" else 0
        return words[at : at + 2] == ["Model", "for"]

    def model(self):
        while self.word() != "{":
            self.at += 1
        self.at += 1
        while self.word() != "}":
            if self.word() != "ghost":
                self.fail(f"a ghost item is expected here, not {self.word()!r}")
            self.ghost()
        self.drop(1)

    def block(self):
        """Writes a trait or an impl."""
        is_impl, start = self.word() == "impl", self.at
        calls.check_impl(self)
        self.take_until("{")
        header = [token.text for token in self.tokens[start : self.at]]
        was, is_own = (self.impl_type, self.impl_head), is_impl and "for" not in header
        self.impl_type, self.impl_head = (impl_type_of(header), "".join(header)) if is_own else (None, None)
        self.take()
        self.items("}")
        self.impl_type, self.impl_head = was
        return self.take()

    # Functions.

    def function(self, begin, start, attributes, is_public):
        """Writes a function; its first token is the one of `out` at `start`, and that of its attributes the one at `begin`."""
        documentation = self.documentation
        self.export_words(attributes)
        record = self.record(is_public)
        is_const = self.word() == "const"
        if is_const:
            self.take()
        is_test = "test" in attributes
        is_main = self.crate.is_program and record.name == "main" and not self.in_tests
        self.formatter = self.formatter_of()
        if (is_test or is_main) and self.takes_runtime():
            self.hosted_function(record.name, is_test)
        else:
            self.signature()
        has_clauses = self.clauses_of(record, is_const)
        header, body = "".join(self.out[start:]), len(self.out)
        has_body = self.word() != ";"
        self.take_group() if has_body else self.take()
        if has_clauses:
            text = self.out[body].lstrip()
            self.out[body] = f" {text}" if text[:1] == "{" else text
        if has_body and record.checks:
            self.put_checks(body, record, LEADING.fullmatch(header)[2])
        self.formatter = None
        record.documentation, record.header, record.impl_head = documentation, LEADING.fullmatch(header)[3], self.impl_head
        self.functions.append(record)
        if EXPORT in attributes:
            record.result = result_of(header)
            self.exports.append(record)
        self.finish(start, attributes, record, header, has_body)
        if record.conditions:
            self.document(begin, ["///", "/// # Requires", "///", *(f"/// - `{clause}`" for clause, _ in record.conditions)])

    def record(self, is_public):
        """What is known of the function whose `const` or `fn` comes next."""
        was, line = self.at, 1 + self.text.count("\n", 0, self.tokens[self.at].at)
        if self.word() == "const":
            self.at += 1
        name, (parameters, generics) = self.word(1), self.parameters_of()
        self.at = was
        return Function(name, line, is_public, parameters, generics, is_public and not self.in_tests and not self.crate.is_program)

    def export_words(self, attributes):
        """Leaves out `extern "C"` of an export, which the C library writes instead."""
        if EXPORT not in attributes:
            return
        if self.words(3) != ["extern", '"C"', "fn"]:
            self.fail("an export is a `pub extern \"C\" fn`")
        self.at += 2

    def takes_runtime(self):
        return self.words(7)[2:] == ["(", "rt", ":", "HostRuntime", ")"]

    def hosted_function(self, name, is_test):
        """Writes the head of a test, or of `main`, which is given the runtime by rattle_std."""
        self.host()
        if is_test:
            self.emit(f"fn {name}() {{ std::test::run({name}_body) }}\n\nfn {name}_body(rt: HostRuntime)", 7)
        else:
            self.emit("rattle_c::main!(main_body);\n\nfn main_body(rt: HostRuntime)", 7)
        self.signature_end()

    def signature(self):
        self.take()
        self.take()
        if self.word() == "<":
            self.generics()
        self.signature_end()

    def signature_end(self):
        self.take_until("{", ";", "requires", "ensures", "ghost")

    def generics(self):
        """Writes generic parameters, without the sink of a formatter."""
        end = self.at + self.angles(0)
        if self.formatter is None:
            while self.at < end:
                self.take()
            return
        kept = [part for part in parted(self.tokens[self.at + 1 : end - 1]) if part[0].text != self.formatter]
        if kept:
            self.fail("a function that is generic over a formatter's sink has another parameter too",
                      "move the other parameter to a type")
        self.at = end

    def formatter_of(self):
        """The parameter `W` of a function that takes a `Formatter<W>`, which isn't generic in Rust."""
        at = 2
        if self.word(at) != "<":
            return None
        end = self.angles(at)
        parts = parted(self.tokens[self.at + at + 1 : self.at + end - 1])
        names = {part[0].text for part in parts if len(part) > 2 and part[1].text == ":" and part[-1].text == "Write"}
        bare = {part[0].text for part in parts if len(part) == 1}
        signature_end = self.group(end, "(") if self.word(end) == "(" else end
        texts = [token.text for token in self.tokens[self.at + end : self.at + signature_end]]
        for n, text in enumerate(texts[:-3]):
            if text == "Formatter" and texts[n + 1] == "<" and texts[n + 2] in names | bare:
                if texts[n + 2] in bare:
                    self.fail("the sink of a formatter has its bound elsewhere", "write `<W: fmt::Write>`")
                return texts[n + 2]
        return None

    def parameters_of(self):
        """The parameters of the function whose `fn` comes next, each as its words, and its generic names."""
        on, generics = 2, []
        if self.word(2) == "<":
            on = self.angles(2)
            parts = parted(self.tokens[self.at + 3 : self.at + on - 1])
            generics = [part[1].text if part[0].text == "const" else part[0].text
                        for part in parts if part[0].kind != "lifetime"]
        end = self.group(on, "(")
        parts = parted(self.tokens[self.at + on + 1 : self.at + end - 1])
        return [[token.text for token in part] for part in parts], generics

    def clauses_of(self, record, is_const):
        """Leaves out the clauses of a function, notes what it requires, and returns whether there was one."""
        start = self.at
        if self.word() == "ghost":
            if self.word(2) != ":":
                self.fail("this ghost clause isn't known")
            self.at += 2
            self.at += self.group(1, "{")
        types = conditions.types_of(record.parameters)
        if record.is_method:
            types["self"] = record.of = self.impl_type or ""
        while self.word() in ("requires", "ensures"):
            is_condition = self.word() == "requires"
            clause = self.skip_clause()
            if not is_condition:
                record.promises.append(clause)
            else:
                record.conditions.append((clause, conditions.check_of(clause, types, self, is_const)))
        return self.at > start

    def forward(self, record, header, pad):
        """The method under the name by which erased code calls it, if it has the name of one of std that rattle_std renames."""
        if not record.is_method or record.name not in RENAMED:
            return ""
        if not self.impl_type:
            self.fail(f"a trait's method {record.name!r} isn't known", "std has one that allocates: rename yours")
        if record.generics:
            self.fail(f"generic parameters of a method {record.name!r} aren't known", "std has one that allocates: rename yours")
        if record.parameters[0][-1] != "self" or any(words[1 + (words[0] == "mut")] != ":" for words in record.parameters[1:]):
            self.fail(f"the parameters of {record.name!r} aren't known", "give each a name, as `to_vec(&self, alloc: Global)`")
        return conditions.forward_of(header, pad, record)

    def put_checks(self, body, record, pad):
        """Puts the checks of a function at the head of its body, whose first token is the one of `out` at `body`."""
        self.out[body] += conditions.checks_of(record, pad)
        if "\n" not in self.out[body + 1]:
            self.out[body + 1] = f"\n{pad}{'    ' * (body + 1 < len(self.out) - 1)}{self.out[body + 1].lstrip()}"

    def finish(self, start, attributes, record, header, has_body):
        """Puts in the hint to inline, and the line of the caller for the checks."""
        before, pad, rest = LEADING.fullmatch(self.joined(self.out[start:])).groups()
        is_hosted = rest.startswith("rattle_c::main!") or "test" in attributes
        has_hint = any(re.match(r"inline|cold", each) for each in attributes)
        lines = ["#[inline]"] if has_body and not self.in_tests and not is_hosted and not has_hint else []
        lines += ['#[cfg_attr(feature = "checked", track_caller)]'] if record.checks else []
        head = before + "".join(f"{pad}{each}\n" for each in lines) + pad
        self.out[start:] = [head + rest + self.forward(record, LEADING.fullmatch(header)[3], pad)]


def prelude(macros, is_hosted, indent=""):
    """What each module brings in: of rattle_std, or of rattle_host, which programs and tests have in its place."""
    place = "rattle_host" if is_hosted else "rattle_std"
    return f"\n{indent}use {place}::{{{', '.join(['self as std', 'prelude::*', *sorted(macros)])}}};\n"


def result_of(header):
    """The type of a function's result, without blanks."""
    found = re.search(r"\)\s*->\s*([^{]+?)\s*$", header)
    return re.sub(r"\s", "", found[1]) if found else None


def generics_of(tokens):
    """The names of all generic parameters in a file."""
    texts, names = [token.text for token in tokens], set()
    for at, text in enumerate(texts):
        opens = text == "impl" or tokens[at].kind == "word" and texts[at - 1] in ("fn", "struct", "enum", "trait", "type")
        if opens and texts[at + 1 : at + 2] == ["<"]:
            end = angles_end(texts, at + 1)
            parts = parted(tokens[at + 2 : end - 1])
            names |= {part[1].text if part[0].text == "const" else part[0].text for part in parts}
    return names


def impl_type_of(header):
    """The head of the type that an impl is for."""
    at = 1
    if header[at : at + 1] == ["<"]:
        depth = 0
        while True:
            depth += {"<": 1, "<<": 2, ">": -1, ">>": -2}.get(header[at], 0)
            at += 1
            if depth == 0:
                break
    return header[at] if at < len(header) else None


def parted(tokens):
    """The parts of a list of tokens that commas part, outside of all brackets."""
    parts, part, depth = [], [], 0
    for token in tokens:
        depth += {"<": 1, "<<": 2, ">": -1, ">>": -2}.get(token.text, 0)
        depth += (token.text in OPEN) - (token.text in CLOSE)
        if token.text == "," and depth == 0:
            parts.append(part)
            part = []
        else:
            part.append(token)
    return [each for each in parts + [part] if each]
