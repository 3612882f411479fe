"""What the eraser knows: the names that mean the same in Rattle's std and in Rust's, those that rattle_std has under
another name, and, for what is refused, what to write instead.

A name is here only if a program in the folder same/ calls it. What isn't here is refused.
"""

INTEGERS = {f"{sign}{bits}" for sign in "ui" for bits in (8, 16, 32, 64, 128, "size")}

# Methods that mean the same on every type of std that has them, by topic.
METHODS = set("""
    abs_diff checked_add checked_div checked_mul checked_neg checked_pow checked_rem checked_shl checked_shr checked_sub
    count_ones count_zeros div_ceil div_euclid is_power_of_two isqrt leading_ones leading_zeros next_multiple_of
    next_power_of_two overflowing_add overflowing_mul overflowing_sub pow rem_euclid reverse_bits rotate_left
    rotate_right saturating_add saturating_mul saturating_pow saturating_sub swap_bytes to_be to_be_bytes to_le
    to_le_bytes to_ne_bytes trailing_ones trailing_zeros wrapping_add wrapping_mul wrapping_neg wrapping_shl
    wrapping_shr wrapping_sub

    clamp cmp is_eq is_ge is_gt is_le is_lt is_ne max min partial_cmp reverse then then_some then_with

    eq_ignore_ascii_case is_ascii is_ascii_alphabetic is_ascii_alphanumeric
    is_ascii_control is_ascii_digit is_ascii_graphic is_ascii_hexdigit is_ascii_lowercase is_ascii_punctuation
    is_ascii_uppercase is_ascii_whitespace is_control is_digit is_whitespace len_utf8 make_ascii_lowercase make_ascii_uppercase
    to_ascii_lowercase to_ascii_uppercase to_digit

    as_chunks as_slice chunks chunks_exact contains copied copy_from_slice copy_within ends_with fill
    first first_chunk first_chunk_mut get get_mut is_empty iter iter_mut last last_chunk last_chunk_mut last_mut len
    remainder rotate_left rotate_right split_at split_at_checked split_at_mut split_at_mut_checked split_first
    split_first_chunk split_last starts_with strip_prefix strip_suffix swap windows

    as_bytes as_str bytes char_indices chars find is_char_boundary lines parse rfind rsplit_once split split_once
    error_len kind offset valid_up_to split_whitespace trim trim_end trim_end_matches trim_start trim_start_matches

    and and_then as_deref as_mut as_ref err filter flatten inspect is_err is_err_and is_none is_none_or is_ok is_ok_and
    is_some is_some_and map map_err map_or map_or_else ok ok_or ok_or_else or or_else replace take unwrap unwrap_or
    unwrap_or_default unwrap_or_else xor

    all any by_ref chain count end enumerate filter_map find_map fold last map_while next next_back nth peek peekable
    position product rev rposition scan skip skip_while start step_by sum take_while try_fold

    capacity clear pop push push_reserved remove swap_remove truncate push_str

    debug_list debug_struct debug_tuple entries entry field finish fmt width write_char write_fmt write_str

    into into_inner try_into

    flowinfo ip is_broadcast is_documentation is_ipv4 is_ipv6 is_link_local is_loopback is_multicast is_private
    is_unicast_link_local is_unique_local is_unspecified octets port scope_id segments set_flowinfo set_ip set_port
    set_scope_id to_bits to_canonical to_ipv4 to_ipv4_mapped to_ipv6_compatible to_ipv6_mapped
""".split())

# Of these the ones that an error of `std::io` may have otherwise. They aren't known in a crate that names `io`.
OTHERWISE_OF_IO = {"kind"}

# Methods that take a range as a place in a list, and iterate over none.
RANGE_TAKERS = set("copy_within get get_mut slice_mut".split())

# Methods that rattle_std has under the name with `rattle_` before it, which std won't ever have: in Rattle they take an
# allocator or the runtime, or, `zip`, step otherwise. No source has a name that begins so.
RENAMED = set("""
    collect expect expect_err lines read_line read_to_end read_to_string repeat to_owned to_string to_vec try_collect zip
""".split())
OURS = "rattle_"

# Of these the call with no argument is another method, which means the same in Rust.
RENAMED_WITH_ARGUMENTS = {"lines"}

# Methods of rattle_std's own types, whose form is that of Rattle's std.
OWN = set("""
    alloc as_mut_slice extend_from_slice flush insert into_bytes read read_exact reader reserve
    resize slice_mut stderr stdin stdout utf8_error write write_all
""".split())

# Functions of a type of the crate that a derive writes.
DERIVED = {"default"}

# Functions of a type, by the type.
FUNCTIONS = {
    "INTEGER": set("from from_be from_be_bytes from_le from_le_bytes from_ne_bytes from_str_radix try_from".split()),
    "ExitCode": {"from"},
    "IpAddr": {"from"},
    "Ipv4Addr": {"from", "from_bits", "new"},
    "Ipv6Addr": {"from", "from_bits", "new"},
    "Ordering": set(),
    "SocketAddr": {"from", "new"},
    "SocketAddrV4": {"new"},
    "SocketAddrV6": {"new"},
    "String": {"from_str", "new", "from_utf8", "with_capacity"},
    "Vec": {"from_elem", "from_slice", "from_array", "new", "with_capacity"},
    "bool": {"from"},
    "char": {"from", "from_digit", "from_u32"},
    "str": {"from_utf8"},
}

# Macros of std that a crate may call; those of a program or of tests begin with `rt;`.
MACROS = set("""
    assert assert_eq assert_ne concat eprint eprintln format format_args matches panic print println prove prove_eq
    prove_ne unreachable vec write writeln
""".split())

# What may be named of std, each by its whole path, and `*` for whatever is in it.
PATHS = set("""
    alloc alloc::AllocError alloc::AllocFailed alloc::Global
    cmp cmp::Ordering cmp::Ordering::* cmp::Reverse cmp::max cmp::min
    convert convert::TryFrom convert::TryInto
    error error::Error
    fmt fmt::Debug fmt::Display fmt::Error fmt::Formatter fmt::Result fmt::Write fmt::LowerHex fmt::UpperHex fmt::Binary
    marker::PhantomData mem mem::replace mem::swap mem::take
    net::IpAddr net::Ipv4Addr net::Ipv6Addr net::SocketAddr net::SocketAddrV4 net::SocketAddrV6
    ops::* result result::Result slice slice::Iter slice::Chunks slice::ChunksExact slice::Windows str str::from_utf8
    str::Chars str::Bytes str::FromStr str::Utf8Error
    iter::Copied iter::Enumerate iter::Zip iter::Map iter::Rev iter::Peekable iter::FusedIterator
""".split())

# .. and what only a program, a test, or a crate over files has, for which rattle_std needs Rust's std.
HOSTED = set("""
    env env::args io io::* process process::Abort process::ExitCode rt rt::Env test test::Fail
""".split())
HOSTED_MACROS = {"eprint", "eprintln", "print", "println"}
HOSTED_NAMES = {"AllocGlobal", "Eprint", "HostRuntime", "Input", "Print"}
# The macros that rattle_std has: each file names those that it calls, since Rust's have the same names.
OWN_MACROS = {"format", "prove", "prove_eq", "prove_ne", "vec"}
OWN_HOSTED_MACROS = HOSTED_MACROS | {"assert", "assert_eq", "assert_ne", "panic"}

# Macros and methods that end the program, for tests alone: in Rattle by SIGABRT, in Rust with the status 101.
STOPPING = {"assert", "assert_eq", "assert_ne", "panic", "expect", "expect_err"}

# Modules of std that are refused, and what to write.
MODULES = {
    "cell": "pass a `&mut`",
    "collections": "in Rust a map can't report that an allocation failed: use a sorted `Vec`",
    "fs": "files aren't known: take a `Read` or a `Write`",
    "mem": "of `std::mem` only `replace`, `swap` and `take` are known",
    "iter": "write a loop, or call a method of an iterator",
    "net": "of `std::net` only addresses are known: for a socket take a `Read` or a `Write`",
    "rc": "own the value, or lend it",
    "sync": "threads aren't known",
    "thread": "threads aren't known",
    "time": "the clock isn't known: take a number",
}

DERIVES = set("Clone Copy Debug Default Eq Hash Ord PartialEq PartialOrd".split())
ATTRIBUTES = set("allow cfg cold default deprecated doc expect inline must_use non_exhaustive repr should_panic test".split())
GONE_ATTRIBUTES = {"cycle", "rattlefmt", "tactic"}
REPRS = {"C", "transparent", "u8"}

# Words that are refused, and what to write.
WORDS = {
    "async": "Rattle has no `async`",
    "await": "Rattle has no `await`",
    "dyn": "use a type parameter with a bound, or an enum",
    "extern": "an export to C is `#[unsafe(no_mangle)] pub extern \"C\" fn`",
    "f32": "a cast of a float means another thing in Rust: use integers",
    "f64": "a cast of a float means another thing in Rust: use integers",
    "union": "declare a struct or an enum",
    "unsafe": "the erased text has no `unsafe`: write the function over slices",
    "RangeFrom": "a range with no end ends before the type's largest value in Rattle, and goes past it in Rust",
    "Box": "allocating a `Box` can't fail with an error in Rust: use a `Vec` with one element",
    "DoubleEndedIterator": "`impl Iterator` alone is known",
    "Drop": "a value with a destructor is dropped in another order in Rust",
    "ExactSizeIterator": "`impl Iterator` alone is known",
    "Extend": "use `push` or `extend_from_slice`",
    "FromIterator": "use a loop with `push`",
    "Send": "threads aren't known",
    "Sync": "threads aren't known",
    "ToOwned": "use `to_vec(alloc)`",
    "ToString": "use `format!(in alloc; ..)`",
    "drop": "end the scope of the value with a block",
    "size_of": "sizes differ in Rust",
    "size_of_val": "sizes differ in Rust",
    "align_of": "alignments differ in Rust",
    "align_of_val": "alignments differ in Rust",
}

# What to write in place of any other method or function of std.
OTHERWISE = "call one that eraser/parts/known.py lists, or write a function of your own"

# Methods that are refused, and what to write.
INSTEAD = {
    "binary_search": "where several values are equal Rust may find another one of them: use a loop",
    "clone": "in Rattle `clone` returns a `Result`: copy a value of a type that is `Copy` by `*value`, and bytes by "
             "`to_vec(alloc)?`",
    "cloned": "use `copied` on items that are `Copy`",
    "into_iter": "write `for x in v`, or `iter()`",
    "is_alphabetic": "it follows the tables of Unicode, which change with Rust's version: use `is_ascii_alphabetic`",
    "is_alphanumeric": "it follows the tables of Unicode, which change with Rust's version: use `is_ascii_alphanumeric`",
    "sort": "in Rattle it takes an allocator or returns a `Result`: use a loop that inserts",
}
# Comparisons: of iterators, Rust may compare the lengths first, and then calls none of their closures.
INSTEAD |= {name: f"of iterators, Rust may compare the lengths alone: write `a {mark} b`"
            for name, mark in {"eq": "==", "ge": ">=", "gt": ">", "le": "<=", "lt": "<", "ne": "!="}.items()}
