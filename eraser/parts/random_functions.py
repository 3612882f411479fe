"""Random functions of Rattle that always return: integers of every width, slices, arrays, loops, matches, options, closures.

Whatever could stop a program is written so that it can't: arithmetic wraps, saturates or is checked, a divisor is a literal,
an index is a remainder by the length. Each function returns a checksum of the values that it noted.
"""

import random

SIGNED = ["i8", "i16", "i32", "i64", "i128", "isize"]
UNSIGNED = ["u8", "u16", "u32", "u64", "u128", "usize"]
INTEGERS = SIGNED + UNSIGNED
BITS = {kind: 64 if kind.endswith("size") else int(kind[1:]) for kind in INTEGERS}
LENGTH = 5

HELPERS = "".join(f"""
fn note_{kind}(seen: &mut u64, x: {kind}) {{
    for byte in x.to_le_bytes() {{
        *seen = seen.wrapping_mul(0x100_0000_01b3) ^ u64::from(byte);
    }}
}}
""" for kind in INTEGERS) + """
fn note_bool(seen: &mut u64, x: bool) {
    note_u8(seen, u8::from(x));
}

fn note_char(seen: &mut u64, x: char) {
    note_u32(seen, u32::from(x));
}

fn show(rt: &impl Print, number: u32, seen: u64) -> io::Result<()> {
    println!(rt; "{number} {seen:016x}")
}
"""


class Writer:
    """Writes one function; `names` has the variables in scope, each with its type and whether it can be assigned."""

    def __init__(self, seed):
        self.random = random.Random(seed)
        self.names, self.count, self.lines, self.depth, self.budget = [], 0, [], 1, 5

    def pick(self, *choices):
        return self.random.choice(choices)

    def fresh(self):
        self.count += 1
        return f"v{self.count}"

    def line(self, text):
        self.lines.append("    " * self.depth + text)

    def named(self, kind, can_assign=False):
        """A variable of this type, or None."""
        found = [name for name, of, is_mutable in self.names if of == kind and (is_mutable or not can_assign)]
        return self.random.choice(found) if found else None

    def integer_kind(self):
        return self.random.choice(INTEGERS)

    # Expressions.

    def literal(self, kind):
        low, high = (-(1 << BITS[kind] - 1), (1 << BITS[kind] - 1) - 1) if kind[0] == "i" else (0, (1 << BITS[kind]) - 1)
        near = self.pick(low, low + 1, high, high - 1, 0, 1, 2, 3, 7, 10)
        value = self.pick(near, near, self.random.randint(low, high), self.random.randint(0, 100))
        if value == low < 0:
            return f"{kind}::MIN"
        return f"({value}{kind})" if value < 0 else f"{value}{kind}"

    def small(self, kind, top=9):
        return f"{self.random.randint(1, top)}{kind}"

    def integer(self, kind, depth=None):
        """An expression of an integer type, which is rarely a deep one."""
        depth = self.pick(0, 1, 1, 1, 2) if depth is None else depth
        name = self.named(kind)
        if depth == 0:
            return name if name and self.random.random() < 0.7 else self.other_integer(kind)
        form = self.random.choice([self.arithmetic, self.arithmetic, self.bits, self.from_bits, self.divided, self.chosen,
                                   self.from_option, self.from_slice, self.converted, self.matched, self.called])
        return form(kind, depth - 1)

    def other_integer(self, kind):
        """A literal, or a variable of another integer type."""
        others = [name for name, of, _ in self.names if of in INTEGERS and of != kind]
        if not others or self.random.random() < 0.5:
            return self.literal(kind)
        return f"{kind}::try_from({self.random.choice(others)}).unwrap_or({self.literal(kind)})"

    def arithmetic(self, kind, depth):
        a, b = self.integer(kind, depth), self.integer(kind, depth)
        how = self.pick("wrapping_add", "wrapping_sub", "wrapping_mul", "saturating_add", "saturating_sub", "saturating_mul",
                        "min", "max")
        return f"{a}.{how}({b})"

    def bits(self, kind, depth):
        a, b, places = self.integer(kind, depth), self.integer(kind, depth), self.random.randrange(BITS[kind])
        forms = [f"({a} & {b})", f"({a} | {b})", f"({a} ^ {b})", f"(!{a})", f"({a} >> {places})",
                 f"{a}.wrapping_shl({places + self.pick(0, BITS[kind])})", f"{a}.wrapping_shr({places + self.pick(0, BITS[kind])})",
                 f"{a}.wrapping_neg()"]
        if kind[0] == "u":
            forms += [f"{a}.rotate_left({places})", f"{a}.rotate_right({places})", f"{a}.swap_bytes()", f"{a}.reverse_bits()"]
        return self.random.choice(forms)

    def from_bits(self, kind, depth):
        """Counts of bits, which are of u32, and what else has a type of its own."""
        other = self.integer_kind()
        a = self.integer(other, depth)
        if kind == "u32":
            return f"{a}.{self.pick('count_ones', 'count_zeros', 'leading_zeros', 'trailing_zeros')}()"
        if kind == "usize":
            return self.counted()
        if kind[0] == "u":
            return f"{self.integer(kind, depth)}.abs_diff({self.integer(kind, depth)})"
        return f"{kind}::from_le_bytes({self.integer(kind, depth)}.to_be_bytes())"

    def divided(self, kind, depth):
        a, b = self.integer(kind, depth), self.small(kind, 100)
        return self.pick(f"({a} / {b})", f"({a} % {b})", f"{a}.rem_euclid({b})", f"{a}.div_euclid({b})",
                         f"{a}.checked_div({self.integer(kind, depth)}).unwrap_or({b})")

    def chosen(self, kind, depth):
        return f"if {self.condition(depth)} {{ {self.integer(kind, depth)} }} else {{ {self.integer(kind, depth)} }}".join("()")

    def from_option(self, kind, depth):
        option, a = self.option(kind, depth), self.integer(kind, depth)
        return self.pick(f"{option}.unwrap_or({a})", f"{option}.map_or({a}, |x| x.wrapping_add({self.literal(kind)}))",
                         f"{option}.unwrap_or_else(|| {a})")

    def from_slice(self, kind, depth):
        slice_name = self.named(f"&[{kind}]") or self.named(f"[{kind}; {LENGTH}]")
        if not slice_name:
            return self.arithmetic(kind, depth)
        start, step = self.literal(kind), self.pick("wrapping_add", "wrapping_mul", "max")
        return self.pick(f"{slice_name}.iter().fold({start}, |a, x| a.{step}(*x))",
                         f"{slice_name}.iter().rev().fold({start}, |a, x| a.wrapping_mul({self.small(kind)}).{step}(*x))",
                         f"{slice_name}.iter().copied().{self.pick('max', 'min', 'last')}().unwrap_or({start})",
                         f"{slice_name}.get({self.integer('usize', depth)} % 8).copied().unwrap_or({start})")

    def converted(self, kind, depth):
        other = self.integer_kind()
        a = self.integer(other, depth)
        narrower = other[0] == kind[0] and BITS[other] < BITS[kind] or other[0] == "u" and BITS[other] < BITS[kind]
        forms = [f"{kind}::try_from({a}).unwrap_or({self.literal(kind)})"] if other != kind else [a]
        if narrower:
            forms.append(f"({a} as {kind})")
        return self.random.choice(forms)

    def matched(self, kind, depth):
        other = self.pick("u8", "i8", "u16", "i64")
        low, high = sorted(self.random.sample(range(2, 100), 2))
        arms = [f"{low}..={high} => {self.integer(kind, depth)}", f"0 | {high + 1}.. => {self.integer(kind, depth)}",
                f"x if x < {self.literal(other)} => {self.integer(kind, depth)}", f"_ => {self.integer(kind, depth)}"]
        self.random.shuffle(arms[:2])
        return f"(match {self.integer(other, depth)} {{ {', '.join(arms)} }})"

    def called(self, kind, depth):
        name = self.named(f"Fn({kind})")
        return f"{name}({self.integer(kind, depth)})" if name else self.arithmetic(kind, depth)

    def counted(self):
        """A count of items."""
        kind = self.integer_kind()
        name = self.named(f"&[{kind}]")
        low, high = self.random.randrange(9), self.random.randrange(9)
        forms = [f"({low}..{high}u8).count()", f"({low}..={high}i16).step_by({self.random.randint(1, 3)}).count()"]
        if name:
            forms += [f"{name}.len()", f"{name}.iter().filter(|x| **x > {self.literal(kind)}).count()",
                      f"{name}.chunks({self.random.randint(1, 4)}).count()", f"{name}.windows({self.random.randint(1, 4)}).count()",
                      f"{name}.iter().skip({low}).step_by({self.random.randint(1, 3)}).count()",
                      f"{name}.iter().take_while(|x| **x != {self.literal(kind)}).count()"]
        return self.random.choice(forms)

    def condition(self, depth):
        kind = self.integer_kind()
        if depth == 0:
            return self.named("bool") or f"{self.integer(kind, 0)} {self.pick('<', '<=', '>', '>=', '==', '!=')} {self.integer(kind, 0)}".join("()")
        a, b, name = self.condition(depth - 1), self.condition(depth - 1), self.named(f"&[{kind}]")
        forms = [f"({self.integer(kind, depth - 1)} < {self.integer(kind, depth - 1)})", f"({a} && {b})", f"({a} || {b})", f"(!{a})", f"({a} ^ {b})",
                 f"{self.option(kind, depth - 1)}.is_some()", f"({self.option(kind, depth - 1)} < {self.option(kind, depth - 1)})",
                 f"matches!({self.integer('u8', depth - 1)}, 3 | 7..=90)"]
        if name:
            forms += [f"{name}.contains(&{self.literal(kind)})", f"{name}.iter().all(|x| *x < {self.literal(kind)})",
                      f"{name}.starts_with(&[{self.literal(kind)}])", f"{name}.iter().any(|x| *x == {self.literal(kind)})"]
        return self.random.choice(forms)

    def option(self, kind, depth):
        if depth == 0:
            return self.named(f"Option<{kind}>") or self.pick(f"Some({self.integer(kind, 0)})", f"None::<{kind}>")
        a, b, other = self.integer(kind, depth - 1), self.integer(kind, depth - 1), self.option(kind, depth - 1)
        name = self.named(f"&[{kind}]")
        forms = [f"Some({a})", f"{a}.{self.pick('checked_add', 'checked_sub', 'checked_mul')}({b})", f"{a}.checked_rem({b})",
                 f"{other}.{self.pick('or', 'xor')}({self.option(kind, depth - 1)})", f"{other}.filter(|x| *x > {self.literal(kind)})",
                 f"{other}.and_then(|x| x.checked_add({self.literal(kind)}))", f"{a}.checked_shl({self.random.randrange(2 * BITS[kind])})",
                 f"{other}.zip({self.option(kind, depth - 1)}).map(|(x, y)| x ^ y)", f"{self.condition(depth - 1)}.then_some({a})"]
        if name:
            forms += [f"{name}.first().copied()", f"{name}.iter().copied().{self.pick('max', 'min')}()",
                      f"{name}.iter().copied().find(|x| *x > {self.literal(kind)})", f"{name}.iter().rev().copied().nth({self.random.randrange(6)})",
                      f"{name}.iter().try_fold({a}, |sum, x| sum.checked_add(*x))"]
        return self.random.choice(forms)

    # Statements.

    def block(self, count):
        """Statements in a scope of their own."""
        outer = len(self.names)
        self.depth += 1
        for _ in range(count):
            self.statement()
        self.depth -= 1
        del self.names[outer:]

    def statement(self):
        self.budget -= 1
        simple = [self.let, self.let, self.assign, self.note, self.let_option, self.let_array, self.closure]
        deep = [self.branch, self.range_loop, self.slice_loop, self.while_loop, self.match_option, self.labelled, self.leave, self.counter]
        self.random.choice(simple if self.budget < 0 or self.depth > 3 else simple + deep)()

    def let(self):
        kind, name = self.pick(*INTEGERS, "bool", "char"), self.fresh()
        is_mutable = self.random.random() < 0.5
        value = {"bool": lambda: self.condition(1), "char": self.character}.get(kind, lambda: self.integer(kind))()
        self.line(f"let {'mut ' if is_mutable else ''}{name}: {kind} = {value};")
        self.names.append((name, kind, is_mutable))
        self.line(f"note_{kind}(&mut seen, {name});")

    def character(self):
        return self.pick(f"char::from({self.integer('u8', 1)})", f"char::from_u32({self.integer('u32', 1)}).unwrap_or('é')",
                         f"char::from_digit({self.integer('u32', 1)} % 36, 36).unwrap_or('x').to_ascii_uppercase()")

    def let_option(self):
        kind, name = self.integer_kind(), self.fresh()
        self.line(f"let {name} = {self.option(kind, 1)};")
        self.names.append((name, f"Option<{kind}>", False))
        self.line(f"note_{kind}(&mut seen, {name}.unwrap_or({self.literal(kind)}));")

    def let_array(self):
        kind, name = self.integer_kind(), self.fresh()
        self.line(f"let mut {name}: [{kind}; {LENGTH}] = [{', '.join(self.integer(kind, self.pick(0, 0, 1)) for _ in range(LENGTH))}];")
        self.names.append((name, f"[{kind}; {LENGTH}]", True))

    def assign(self):
        kind = self.integer_kind()
        name, array = self.named(kind, can_assign=True), self.named(f"[{kind}; {LENGTH}]", can_assign=True)
        if array:
            at = f"{self.integer('usize', 1)} % {LENGTH}"
            self.line(self.pick(f"{array}[{at}] = {self.integer(kind, 1)};", f"{array}[{at}] ^= {self.integer(kind, 1)};",
                                f"{array}.swap({at}, {at});", f"{array}.reverse();", f"{array}.rotate_left({at});",
                                f"{array}[{self.random.randrange(LENGTH)}..].fill({self.integer(kind, 1)});"))
            self.line(f"note_{kind}(&mut seen, {array}[{at}]);")
        elif name:
            self.line(self.pick(f"{name} = {self.integer(kind)};", f"{name} ^= {self.integer(kind)};", f"{name} |= {self.integer(kind)};",
                                f"{name} &= {self.integer(kind)};", f"{name} >>= {self.random.randrange(BITS[kind])};"))
        else:
            self.note()

    def note(self):
        kind = self.integer_kind()
        self.line(f"note_{kind}(&mut seen, {self.integer(kind)});")

    def closure(self):
        kind, name = self.integer_kind(), self.fresh()
        captured = self.integer(kind, 1)
        self.line(f"let {name} = |x: {kind}| x.{self.pick('wrapping_add', 'wrapping_mul', 'min')}({captured});")
        self.names.append((name, f"Fn({kind})", False))

    def counter(self):
        """A closure that writes what it captures."""
        kind, name, calls = self.integer_kind(), self.fresh(), self.fresh()
        self.line(f"let mut {name} = {self.integer(kind, 1)};")
        self.line(f"let mut {calls} = |x: {kind}| {{ {name} = {name}.wrapping_mul({self.small(kind)}).wrapping_add(x); {name} }};")
        self.line(f"note_{kind}(&mut seen, {calls}({self.integer(kind, 1)}));")
        self.line(f"note_{kind}(&mut seen, {calls}({self.integer(kind, 1)}));")
        self.line(f"note_{kind}(&mut seen, {name});")

    def branch(self):
        self.line(f"if {self.condition(1)} {{")
        self.block(1)
        self.line("} else {")
        self.block(1)
        self.line("}")

    def range_loop(self):
        kind, name = self.pick("u8", "i8", "u16", "i32", "usize"), self.fresh()
        low, high = self.random.randrange(6), self.random.randrange(9)
        ranges = [f"{low}..{high}{kind}", f"{low}..={high}{kind}", f"({low}..{high}{kind}).rev()", f"({low}..={high}{kind}).step_by(2)",
                  f"({kind}::MAX - {low})..={kind}::MAX"]
        self.line(f"for {name} in {self.random.choice(ranges)} {{")
        self.loop_body([(name, kind, False)])

    def loop_body(self, bound):
        outer = len(self.names)
        self.names += bound
        self.block(1)
        if self.random.random() < 0.3:
            self.line(f"    if {self.condition(1)} {{ {self.pick('break', 'continue')}; }}")
        del self.names[outer:]
        self.line("}")

    def slice_loop(self):
        kind, name, at = self.integer_kind(), self.fresh(), self.fresh()
        slice_name = self.named(f"&[{kind}]")
        if not slice_name:
            return self.range_loop()
        self.line(self.pick(f"for {name} in {slice_name} {{", f"for {name} in {slice_name}.iter().rev() {{",
                            f"for {name} in {slice_name}.iter().skip(1).step_by(2) {{", f"for {name} in {slice_name}.iter().chain({slice_name}) {{"))
        self.line(f"    let {at} = *{name};")
        return self.loop_body([(at, kind, False)])

    def while_loop(self):
        name, top = self.fresh(), self.random.randint(1, 6)
        self.line(f"let mut {name} = 0u8;")
        self.line(f"while {name} < {top} {{")
        self.line(f"    {name} += 1;")
        self.loop_body([(name, "u8", False)])

    def labelled(self):
        label, name = f"'l{self.count}", self.fresh()
        self.line(f"let {name} = {label}: {{")
        self.line(f"    if {self.condition(1)} {{ break {label} {self.integer('u32')}; }}")
        self.block(1)
        self.line(f"    {self.integer('u32', 1)}")
        self.line("};")
        self.line(f"note_u32(&mut seen, {name});")

    def match_option(self):
        kind, name = self.integer_kind(), self.fresh()
        self.line(f"match {self.option(kind, 1)} {{")
        self.line(f"    Some({name}) if {name} > {self.literal(kind)} => {{")
        self.depth += 1
        self.names.append((name, kind, False))
        self.block(1)
        self.names.pop()
        self.line("}")
        self.line("Some(_) => note_u8(&mut seen, 1),")
        self.line("None => note_u8(&mut seen, 2),")
        self.depth -= 1
        self.line("}")

    def leave(self):
        if self.random.random() < 0.5:
            return self.note()
        if self.random.random() < 0.4:
            self.line(f"if {self.condition(1)} {{ return seen; }}")
        else:
            kind, name = self.integer_kind(), self.fresh()
            self.line(f"let Some({name}) = {self.option(kind, 1)}.or({self.option(kind, 1)}) else {{ return seen; }};")
            self.names.append((name, kind, False))

    # The function, and its calls.

    def function(self, number):
        """The text of a function, and the types of its parameters."""
        kinds = [self.integer_kind(), self.integer_kind(), f"&[{self.integer_kind()}]", f"Option<{self.integer_kind()}>", f"&[{self.integer_kind()}]"]
        self.names = [(f"p{at}", kind, False) for at, kind in enumerate(kinds)]
        parameters = ", ".join(f"p{at}: {kind}" for at, kind in enumerate(kinds))
        for _ in range(self.random.randint(2, 4)):
            self.statement()
        head = f"fn random_{number}({parameters}) -> u64 {{\n    let mut seen = 0xcbf2_9ce4_8422_2325u64;\n"
        return head + "\n".join(self.lines) + "\n    seen\n}\n", kinds

    def argument(self, kind):
        if kind.startswith("&["):
            return f"&[{', '.join(self.literal(kind[2:-1]) for _ in range(self.random.randrange(7)))}]"
        if kind.startswith("Option<"):
            return self.pick(f"Some({self.literal(kind[7:-1])})", "None")
        return self.literal(kind)


def unlike(results, count):
    """The functions, of so many, whose lines differ between some results, or that have none."""
    return [number for number in range(count)
            if len({tuple(lines.get(number, ())) for lines in results}) > 1 or not results[0].get(number)]


def program(seed, count, calls=3):
    """The source of a program that calls so many random functions, and the text of each function."""
    functions, shown, groups = [], [], []
    for number in range(count):
        writer = Writer(f"{seed}/{number}")
        text, kinds = writer.function(number)
        functions.append(text)
        shown += [f"    show(rt, {number}, random_{number}({', '.join(writer.argument(kind) for kind in kinds)}))?;" for _ in range(calls)]
    for at in range(0, len(shown), 60):
        groups.append("\n".join([f"fn group{at}(rt: &impl Print) -> io::Result<()> {{", *shown[at : at + 60], "    Ok(())", "}\n"]))
    main = "\n".join(["fn main(rt: HostRuntime) -> io::Result<()> {", *(f"    group{at}(&rt)?;" for at in range(0, len(shown), 60)), "    Ok(())", "}\n"])
    head = f"//! Random functions of the seed {seed}.\n#![tactic(auto)]\n\nuse std::io;\n"
    return "\n".join([head, HELPERS, *functions, *groups, main]), functions
