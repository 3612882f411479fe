"""The names that a crate defines, read from its tokens: the eraser takes a call for known by them."""

from dataclasses import dataclass, field

from .known import FUNCTIONS
from .tokens import tokens_of

STRUCTURES = {"enum", "struct"}
TYPES = STRUCTURES | {"type"}


@dataclass
class Names:
    """What a crate, or several, define. A method is a function with `self`.

    `declared` has pairs of a trait and a method of it, `inherent` pairs of a type and a function of its own, and `implemented` pairs of a trait and a type that has it. `fields`
    has public fields: the structure, the field and its type.
    """

    functions: set = field(default_factory=set)
    methods: set = field(default_factory=set)
    trait_methods: set = field(default_factory=set)
    types: set = field(default_factory=set)
    structures: set = field(default_factory=set)
    fields: set = field(default_factory=set)
    declared: set = field(default_factory=set)
    inherent: set = field(default_factory=set)
    implemented: set = field(default_factory=set)
    traits: set = field(default_factory=set)
    modules: set = field(default_factory=set)
    macros: set = field(default_factory=set)

    def add(self, other):
        for each, names in vars(other).items():
            getattr(self, each).update(names)
        return self

    def types_of_fields(self):
        """The types of public fields, of which one structure alone has the name. A model shows other fields to contracts."""
        modelled = {of for trait, of in self.implemented if trait == "Model"}
        types = {}
        for structure, name, of in self.fields:
            types.setdefault((structure, name), set()).add(of)
        return {place: min(of) for place, of in types.items() if len(of) == 1 and place[0] not in modelled}

    def methods_of_foreign_types(self):
        """The methods of traits of the crate that a type has which isn't a structure or an enum of the crate."""
        foreign = {trait for trait, of in self.implemented if of not in self.structures - FUNCTIONS.keys()}
        return {method for trait, method in self.declared if trait in foreign}


def names_of(text):
    """The names that one file defines."""
    names, tokens = Names(), tokens_of(text)
    words = [token.text for token in tokens] + ["", "", ""]
    trait_ends = trait_spans(words)
    for at, word in enumerate(words[:-3]):
        name = words[at + 1]
        if word in TYPES and words[at - 1] != ".":
            names.types.add(name)
            names.structures |= {name} if word in STRUCTURES else set()
            names.fields |= fields_of(words, at) if word == "struct" else set()
        elif word == "trait":
            names.traits.add(name)
        elif word == "mod":
            names.modules.add(name)
        elif word == "macro_rules":
            names.macros.add(words[at + 2])
        elif word == "fn" and tokens[at + 1].kind == "word":
            add_function(names, words, at, any(begin < at < end for begin, end in trait_ends))
    for begin, end in trait_ends:
        add_trait(names, words, begin, end)
    for head, begin, end in blocks(words, "impl"):
        if "for" not in words[head:begin]:
            of = last_name(words, head + 1, begin)
            names.inherent |= {(of, words[at + 1]) for at in range(begin, end) if words[at] == "fn"}
    return names


def fields_of(words, at):
    """The public fields of the structure whose `struct` is at this place. `pub(..)` isn't public everywhere."""
    begin = at
    while words[begin] not in ("{", "(", ";", ""):
        begin += 1
    end, fields = group_end(words, begin) if words[begin] == "{" else begin, set()
    depth, starts = 0, [begin + 1]
    for place in range(begin + 1, end):
        depth += (words[place] in "([{<") - (words[place] in ")]}>")
        if words[place] == "," and depth == 0:
            starts.append(place + 1)
    for start, stop in zip(starts, [*starts[1:], end + 1]):
        part = words[start : stop - 1]
        if "pub" in part and part[part.index("pub") + 2 : part.index("pub") + 3] == [":"]:
            own = part[part.index("pub") + 1 :]
            fields.add((words[at + 1], own[0], "".join(word for word in own[2:] if not word.startswith("'"))))
    return fields


def add_trait(names, words, begin, end):
    """What the block of a trait declares, or which trait an `impl` is of, and for which type."""
    head = begin
    while words[head] not in ("trait", "impl"):
        head -= 1
    if words[head] == "trait":
        names.declared |= {(words[head + 1], words[at + 1]) for at in range(begin, end) if words[at] == "fn"}
        return
    of = next(at for at in range(head, begin) if words[at] == "for" and words[at + 1] != "<")
    names.implemented.add((last_name(words, head + 1, of), last_name(words, of + 1, begin)))


def last_name(words, at, end):
    """The last name of the path that begins here, behind generic parameters and before generic arguments."""
    if words[at] == "<":
        at = angles_end(words, at)
    name = ""
    while at < end and (words[at] == "::" or words[at][:1].isalpha() or words[at][:1] == "_"):
        name, at = words[at], at + 1
    return name


def add_function(names, words, at, in_trait):
    name = words[at + 1]
    if not has_self(words, at + 2):
        names.functions.add(name)
    elif in_trait:
        names.trait_methods.add(name)
    else:
        names.methods.add(name)


def has_self(words, at):
    """Whether the parameters that follow begin with `self`, in any form."""
    if words[at] == "<":
        at = angles_end(words, at)
    while words[at] and words[at] != "(":
        at += 1
    parameter = words[at + 1 : at + 6]
    return "self" in parameter[: next((n for n, word in enumerate(parameter) if word in (",", ")", ":")), 5)]


def angles_end(words, at):
    """The place behind the angle brackets that begin at this place."""
    depth = 0
    while at < len(words):
        depth += {"<": 1, "<<": 2, ">": -1, ">>": -2}.get(words[at], 0)
        at += 1
        if depth <= 0:
            break
    return at


def trait_spans(words):
    """Where the blocks of traits, and of impls of traits, begin and end."""
    return [(begin, end) for head, begin, end in blocks(words, "trait", "impl") if words[head] == "trait" or "for" in words[head:begin]]


def blocks(words, *heads):
    """The places of these words, and where their blocks begin and end."""
    found = []
    for at, word in enumerate(words):
        if word not in heads or words[at - 1] in (":", "&", "(", ",", "<", "->"):
            continue
        begin = at
        while words[begin] not in ("{", ";", ""):
            begin += 1
        if words[begin] == "{":
            found.append((at, begin, group_end(words, begin)))
    return found


def group_end(words, at):
    """The place of the bracket that ends the group which begins at this place."""
    depth = 0
    while at < len(words):
        depth += (words[at] in "([{" and words[at] != "") - (words[at] in ")]}" and words[at] != "")
        if depth == 0:
            return at
        at += 1
    return at
