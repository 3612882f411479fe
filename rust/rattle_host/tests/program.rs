//! Tests of the runtime, the streams, the arguments and the status of a program. This program starts itself again for
//! each case, and compares what that process prints, and its status, with what is expected.
#[path = "../../tests/memory/refusing.rs"]
mod refusing;

use rattle_host::alloc::Global;
use rattle_host::io::{self, Read, Write};
use rattle_host::process::{Abort, ExitCode, Termination};
use rattle_host::rt::{Env, HostRuntime};
use rattle_host::test::{Fail, Outcome};
use rattle_host::{eprint, eprintln, prelude::*, print, println};
use std::panic::{AssertUnwindSafe, catch_unwind};
use std::process::{Command, Output, Stdio};

fn main() -> std::process::ExitCode {
    rattle_host::rt::status_of(start).into()
}

/// Runs the case that the first argument names. Without an argument it runs all tests.
fn start(rt: HostRuntime) -> ExitCode {
    let mut arguments = match rattle_host::env::args(&rt) {
        Ok(arguments) => arguments,
        Err(why) => return ExitCode::from(if why.kind() == io::ErrorKind::InvalidData { 9 } else { 10 }),
    };
    let _name = arguments.next();
    match arguments.next().as_deref() {
        Some("prints") => status(prints(rt)),
        Some("flags") => status(flags(rt)),
        Some("no memory") => ExitCode::from(prints_with_no_memory(rt)),
        Some("no reader") => no_memory_for_a_reader(rt),
        Some("no print") => status(refusing::failing_after(0, || print!(rt; "x")).0),
        Some("long prints") => ExitCode::from(long_prints(rt)),
        Some("copies") => status(copies(rt)),
        Some("bytes") => status(bytes(rt)),
        Some("reads on") => status(reads_on(rt)),
        Some("lines") => status(lines(rt)),
        Some("arguments") => status(arguments.try_for_each(|argument| println!(rt; "[{argument}]"))),
        Some("closed") => ExitCode::from(closed(rt)),
        Some("error") => Err::<(), _>("why").report(),
        Some("code") => ExitCode::from(77),
        Some("high code") => ExitCode::from(200),
        Some("two readers") => status(two_readers(rt)),
        Some("good code") => Ok::<_, ()>(ExitCode::from(78)).report(),
        Some("many files") => ExitCode::from(many_files(rt)),
        Some("one read") => status(one_read(rt)),
        Some("full") => ExitCode::from(full(rt)),
        Some("long texts") => status(long_texts(rt)),
        Some("flush") => {
            rattle_host::rt::status_of(|_| std::print!("x"));
            std::process::abort()
        }
        Some("little memory") => {
            let count = arguments.next().map_or(0, |count| count.parse().unwrap_or(0));
            ExitCode::from(little_memory(rt, count))
        }
        Some("success") => Ok::<(), ()>(()).report(),
        Some("unit") => ().report(),
        Some("failure") => ExitCode::FAILURE,
        _ => {
            every_case();
            unit_cases(rt);
            std::println!("test result: ok. every case passed, 0 failed");
            ExitCode::SUCCESS
        }
    }
}

fn status(done: io::Result<()>) -> ExitCode {
    done.report()
}

fn prints(rt: HostRuntime) -> io::Result<()> {
    print!(rt; "a{}", 1)?;
    println!(rt)?;
    println!(rt;)?;
    println!(rt; "b{}", 2)?;
    rt.print('c')?;
    rt.println(3)?;
    eprint!(rt; "d{}", 4)?;
    eprintln!(rt)?;
    eprintln!(rt;)?;
    eprintln!(rt; "e{}", 5)?;
    rt.stdout().write_all(b"f")?;
    rt.stdout().flush()?;
    rt.stderr().write_all(b"g")?;
    rt.stderr().flush()
}

/// A text of 2,500 bytes in pieces of seven bytes and one of one byte.
struct Pieces;

impl std::fmt::Display for Pieces {
    fn fmt(&self, f: &mut std::fmt::Formatter<'_>) -> std::fmt::Result {
        for _ in 0..357 {
            f.write_str("abcdefg")?;
        }
        f.write_str("z")
    }
}

/// A value whose formatting fails after its first piece.
struct Fails;

impl std::fmt::Display for Fails {
    fn fmt(&self, f: &mut std::fmt::Formatter<'_>) -> std::fmt::Result {
        f.write_str("begun")?;
        Err(std::fmt::Error)
    }
}

/// Prints a long text, and one whose formatting fails, which is also written to each stream and to a vector. The status is
/// 5 if the first print succeeds and the others fail, by their kind.
fn long_prints(rt: HostRuntime) -> u8 {
    let long = rt.print(Pieces).is_ok();
    let mut bytes = Vec::new(Global);
    let failed = [
        rt.print(Fails),
        write!(rt.stdout(), "{Fails}"),
        write!(rt.stderr(), "{Fails}"),
        write!(bytes, "a{Fails}b"),
    ];
    let kinds = failed.map(|printed| printed.map_err(|why| why.kind()));
    let wanted = [Err(std::io::ErrorKind::Other); 4];
    u8::from(long) + 4 * u8::from(kinds == wanted && *bytes == *b"abegun")
}

fn copies(rt: HostRuntime) -> io::Result<()> {
    let mut first = [0; 2];
    rt.stdin().read_exact(&mut first)?;
    let mut bytes = Vec::from_array(Global, [b'<']).unwrap();
    let count = rt.stdin().rattle_read_to_end(&mut bytes)?;
    println!(rt; "{count} {}", bytes.len())?;
    rt.stdout().write_all(&bytes)
}

/// Writes the input to both streams, in two pieces and with a flush after each.
fn bytes(rt: HostRuntime) -> io::Result<()> {
    let mut bytes = [0; 9];
    let count = rt.stdin().read(&mut bytes)?;
    for piece in bytes[..count].chunks(2) {
        rt.stdout().write_all(piece)?;
        rt.stdout().flush()?;
        rt.stderr().write_all(piece)?;
        rt.stderr().flush()?;
    }
    Ok(())
}

fn lines(rt: HostRuntime) -> io::Result<()> {
    for line in rt.rattle_lines(rt.alloc()) {
        println!(rt; "[{}]", line?)?;
    }
    Ok(())
}

/// A reader takes no byte after the line that it reads, so a second reader reads the rest.
fn two_readers(rt: HostRuntime) -> io::Result<()> {
    let (mut line, mut rest) = (String::new(Global), String::new(Global));
    rt.reader().rattle_read_line(&mut line)?;
    rt.reader().rattle_read_to_string(&mut rest)?;
    println!(rt; "{line:?} {rest:?}")
}

/// Each reader goes on where the one before it stopped, whichever call reads a line.
fn reads_on(rt: HostRuntime) -> io::Result<()> {
    let (mut second, mut last) = (String::new(Global), String::new(Global));
    let first = rt.rattle_lines(Global).next().transpose()?;
    rt.reader().rattle_read_line(&mut second)?;
    let third = rt.rattle_lines(Global).next().transpose()?;
    rt.stdin().rattle_read_to_string(&mut last)?;
    println!(rt; "{first:?} {second:?} {third:?} {last:?}")
}

/// Returns how many of the three standard streams return an error.
fn closed(rt: HostRuntime) -> u8 {
    let printed = print!(rt; "x").is_err();
    let wrote = rt.stderr().write(b"x").is_err();
    let read = rt.stdin().read(&mut [0]).is_err();
    u8::from(printed) + u8::from(wrote) + u8::from(read)
}

/// Opens files until the system opens no more, and returns the system's error number of a print, if every other call of
/// a stream returns it too.
fn many_files(rt: HostRuntime) -> u8 {
    let _files: std::vec::Vec<_> = (0..100).map_while(|_| std::fs::File::open("/dev/null").ok()).collect();
    let code = |done: io::Result<()>| done.err().and_then(|why| why.raw_os_error());
    let wanted = code(print!(rt; "x"));
    let others = [
        eprint!(rt; "x"),
        eprintln!(rt; "x"),
        rt.stdout().flush(),
        rt.stderr().flush(),
        rt.stdout().write_all(b"x"),
        rt.stderr().write_all(b"x"),
        rt.stdin().read(&mut [0]).map(|_| ()),
    ];
    if others.map(code) == [wanted; 7] { wanted.map_or(0, |code| code as u8) } else { 255 }
}

/// Writes a text to a full device, and prints one that is longer than the buffer of a print, and a line. Returns the system's
/// error number if each call returns it.
fn full(rt: HostRuntime) -> u8 {
    let wrote = write!(rt.stdout(), "x").err().and_then(|why| why.raw_os_error());
    let printed = print!(rt; "{Letters}{Letters}").err().and_then(|why| why.raw_os_error());
    let line = println!(rt; "x").err().and_then(|why| why.raw_os_error());
    if [wrote; 2] == [printed, line] { wrote.map_or(0, |code| code as u8) } else { 255 }
}

/// Prints how many bytes one read returns.
fn one_read(rt: HostRuntime) -> io::Result<()> {
    let count = rt.stdin().read(&mut [0; 9])?;
    println!(rt; "{count}")
}

/// A value that prints the flags of the format.
struct Flags;

impl std::fmt::Display for Flags {
    fn fmt(&self, f: &mut std::fmt::Formatter<'_>) -> std::fmt::Result {
        let (alternate, width, precision) = (f.alternate(), f.width(), f.precision());
        write!(f, "{alternate} {width:?} {precision:?} {}", f.sign_plus())
    }
}

/// What it prints if the format has none.
const PLAIN: &str = "false None None false";

/// Each print is without flags.
fn flags(rt: HostRuntime) -> io::Result<()> {
    rt.print(Flags)?;
    rt.println(Flags)?;
    rt.eprint(Flags)?;
    rt.eprintln(Flags)
}

/// Returns how many of these allocate: prints to standard error, and prints to standard output after a first one.
fn prints_with_no_memory(rt: HostRuntime) -> u8 {
    let errors = refusing::failing_after(0, || (eprint!(rt; "{Letters}"), eprintln!(rt; "{Letters}"), rt.stderr())).1;
    let first = print!(rt; "x").is_err();
    let prints = refusing::failing_after(0, || (print!(rt; "{Letters}{Letters}"), println!(rt; "x"), rt.stdout())).1;
    u8::from(errors) + u8::from(first) + u8::from(prints)
}

/// The program ends in the allocation of a reader's buffer.
fn no_memory_for_a_reader(rt: HostRuntime) -> ExitCode {
    let _allocates_once = rt.stdin();
    let _reader = refusing::failing_after(0, || rt.reader());
    ExitCode::SUCCESS
}

/// A text of 900 pieces of one byte.
struct Letters;

impl std::fmt::Display for Letters {
    fn fmt(&self, f: &mut std::fmt::Formatter<'_>) -> std::fmt::Result {
        (0..900).try_for_each(|_| f.write_str("x"))
    }
}

fn long_texts(rt: HostRuntime) -> io::Result<()> {
    print!(rt; "{Letters}")?;
    println!(rt; "{Letters}")?;
    eprint!(rt; "{Letters}")?;
    eprintln!(rt; "{Letters}")
}

/// Returns the number of arguments if the allocation after `count` others fails, or 100 if `args` then fails with
/// `OutOfMemory`, or 101 if it fails with another error. If an allocation of Rust's own calls fails, the program ends.
fn little_memory(rt: HostRuntime, count: usize) -> u8 {
    match refusing::failing_after(count, || rattle_host::env::args(&rt)).0 {
        Ok(all) => all.count() as u8,
        Err(why) if why.kind() == io::ErrorKind::OutOfMemory => 100,
        Err(_) => 101,
    }
}

/// Runs a case, and returns what it printed to standard output and to standard error, and its status.
fn ran(arguments: &[&str], input: &[u8]) -> (std::string::String, std::string::String, Option<i32>) {
    let output = ended(arguments, input);
    let text = |bytes| std::string::String::from_utf8(bytes).unwrap();
    (text(output.stdout), text(output.stderr), output.status.code())
}

/// Runs a case with this input.
fn ended(arguments: &[&str], input: &[u8]) -> Output {
    let mut child = Command::new(std::env::current_exe().unwrap())
        .args(arguments)
        .stdin(Stdio::piped())
        .stdout(Stdio::piped())
        .stderr(Stdio::piped())
        .spawn()
        .unwrap();
    child.stdin.take().unwrap().write_all(input).unwrap();
    child.wait_with_output().unwrap()
}

/// A case: its arguments and its input, what it has to print to standard output and to standard error, and its status.
type Case = (&'static [&'static str], &'static [u8], &'static str, &'static str, i32);

fn every_case() {
    let cases: [Case; 17] = [
        (&["prints"], b"", "a1\n\nb2\nc3\nf", "d4\n\ne5\ng", 0),
        (&["copies"], b"abcde\xc3\x9f", "5 6\n<cde\u{df}", "", 0),
        (&["copies"], b"a", "", "Error: Error { kind: UnexpectedEof, message: \"failed to fill whole buffer\" }\n", 1),
        (&["lines"], b"a\nb\r\n\n\rc", "[a]\n[b]\n[]\n[\rc]\n", "", 0),
        (&["lines"], b"a\n\xff\nb\n", "[a]\n", "Error: Kind(InvalidData)\n", 1),
        (&["arguments", "a b", "", "\u{df}"], b"", "[a b]\n[]\n[\u{df}]\n", "", 0),
        // White space at the ends of an argument is kept.
        (&["arguments", " a\t", "\n"], b"", "[ a\t]\n[\n]\n", "", 0),
        (&["error"], b"", "", "Error: \"why\"\n", 1),
        (&["code"], b"", "", "", 77),
        (&["high code"], b"", "", "", 200),
        (&["two readers"], b"a\nb\nc", "\"a\\n\" \"b\\nc\"\n", "", 0),
        (&["reads on"], b"a\nb\nc\nd\ne", "Some(\"a\") \"b\\n\" Some(\"c\") \"d\\ne\"\n", "", 0),
        (&["good code"], b"", "", "", 78),
        (&["success"], b"", "", "", 0),
        (&["unit"], b"", "", "", 0),
        (&["failure"], b"", "", "", 1),
        (&["one read"], b"abcde", "5\n", "", 0),
    ];
    for (arguments, input, stdout, stderr, status) in cases {
        let wanted = (stdout.to_string(), stderr.to_string(), Some(status));
        assert_eq!(ran(arguments, input), wanted, "{arguments:?}");
    }
    // Each argument is there, however many there are.
    let many = [&["arguments"][..], &["", "a"].repeat(1000)].concat();
    assert_eq!(ran(&many, b""), ("[]\n[a]\n".repeat(1000), std::string::String::new(), Some(0)));
    let (stdout, stderr, status) = ran(&["no memory"], b"");
    assert_eq!((stdout.len(), stderr.len(), status), (1803, 1801, Some(0)));
    for (case, said) in [("no reader", "memory allocation of 1 bytes failed"), ("no print", "memory allocation of ")] {
        let (_, stderr, status) = ran(&[case], b"");
        assert!(stderr.contains(said) && status != Some(0) && status != Some(1), "{case}: {stderr}");
    }
    let plain = std::format!("{PLAIN}{PLAIN}\n");
    assert_eq!(ran(&["flags"], b""), (plain.clone(), plain, Some(0)));
    let (stdout, stderr, status) = ran(&["long prints"], b"");
    assert_eq!((stdout, stderr.as_str(), status), ("abcdefg".repeat(357) + "zbegunbegun", "begun", Some(5)));
    let long = std::vec![b'x'; 10_000];
    let (stdout, _, status) = ran(&["copies"], &long);
    assert_eq!((stdout.len(), status), ("9998 9999\n".len() + 9999, Some(0)));
    // What `main` printed by Rust's own macro is there before the program ends, however it does that.
    assert_eq!(ran(&["flush"], b"").0, "x");
    // Where memory is short for a copy, that is the error; the three arguments are there where nothing fails any more.
    let ends = |count: usize| ran(&["little memory", &count.to_string()], b"").2;
    let ends: std::vec::Vec<_> = (0..20).filter_map(ends).collect();
    assert!(ends.contains(&100) && ends.ends_with(&[3]) && !ends.contains(&101), "{ends:?}");
    #[cfg(unix)]
    unix_cases();
}

#[cfg(unix)]
fn unix_cases() {
    use std::os::unix::ffi::OsStringExt;
    // The bytes needn't be UTF-8, neither all of them nor those of one write.
    for input in [&b"\xff"[..], b"a\xc3\x9f\0", b"\x80\n\r\n\xc3"] {
        let output = ended(&["bytes"], input);
        assert_eq!((&output.stdout[..], &output.stderr[..], output.status.code()), (input, input, Some(0)));
    }
    let name = std::ffi::OsString::from_vec(std::vec![b'a', 0xff]);
    let failed = Command::new(std::env::current_exe().unwrap()).arg("arguments").arg(name).output().unwrap();
    assert_eq!((failed.status.code(), failed.stdout.len()), (Some(9), 0));
    writes_are_seen();
    // Rust's start-up code opens /dev/null in place of a closed stream. So
    // standard output and standard error are a file to which every write fails, and only these two return an error.
    let (shell, program) = ("exec \"$0\" closed <&- >/dev/full 2>&1", std::env::current_exe().unwrap());
    let full = Command::new("sh").args(["-c", shell]).arg(program).status().unwrap();
    assert_eq!(full.code(), Some(2));
    if cfg!(target_os = "linux") {
        let (shell, program) = ("ulimit -n 40; exec \"$0\" \"many files\"", std::env::current_exe().unwrap());
        let many = Command::new("sh").args(["-c", shell]).arg(program).status().unwrap();
        // EMFILE.
        assert_eq!(many.code(), Some(24));
        // The error is that of the write, which is ENOSPC, and not that of the formatting, which it stops.
        let (shell, program) = ("exec \"$0\" full >/dev/full", std::env::current_exe().unwrap());
        let full = Command::new("sh").args(["-c", shell]).arg(program).status().unwrap();
        assert_eq!(full.code(), Some(28));
    }
}

/// Each print is one write, and a write to a pipe that has no reader is an error.
#[cfg(unix)]
fn writes_are_seen() {
    use std::os::{fd::OwnedFd, unix::net::UnixDatagram};
    let (ours, theirs) = UnixDatagram::pair().unwrap();
    let printed = Command::new(std::env::current_exe().unwrap()).arg("prints").stdout(OwnedFd::from(theirs)).output().unwrap();
    assert_eq!(printed.status.code(), Some(0));
    ours.set_nonblocking(true).unwrap();
    let mut part = [0; 9];
    for wanted in ["a1", "\n", "\n", "b2\n", "c", "3\n", "f"] {
        let len = ours.recv(&mut part).unwrap();
        assert_eq!(part[..len], *wanted.as_bytes());
    }
    let (ours, theirs) = UnixDatagram::pair().unwrap();
    let printed = Command::new(std::env::current_exe().unwrap()).arg("long prints").stdout(OwnedFd::from(theirs)).output().unwrap();
    assert_eq!(printed.status.code(), Some(5));
    ours.set_nonblocking(true).unwrap();
    let mut part = [0; 4096];
    assert_eq!([1024, 1024, 452, 5, 5].map(|_| ours.recv(&mut part).unwrap()), [1024, 1024, 452, 5, 5]);
    long_texts_are_one_write_each();
    let mut child = Command::new(std::env::current_exe().unwrap())
        .arg("copies")
        .stdin(Stdio::piped())
        .stdout(Stdio::piped())
        .stderr(Stdio::piped())
        .spawn()
        .unwrap();
    drop(child.stdout.take());
    child.stdin.take().unwrap().write_all(b"abc").unwrap();
    let output = child.wait_with_output().unwrap();
    assert_eq!(output.status.code(), Some(1));
    assert!(output.stderr.starts_with(b"Error: Os { code: 32, kind: BrokenPipe"));
}

/// Also to standard error, however many pieces the text has.
#[cfg(unix)]
fn long_texts_are_one_write_each() {
    use std::os::{fd::OwnedFd, unix::net::UnixDatagram};
    let (out, theirs) = UnixDatagram::pair().unwrap();
    let (errors, others) = UnixDatagram::pair().unwrap();
    // So that more writes than are held for us fail, and don't wait.
    theirs.set_nonblocking(true).unwrap();
    others.set_nonblocking(true).unwrap();
    let mut printed = Command::new(std::env::current_exe().unwrap());
    printed.arg("long texts").stdout(OwnedFd::from(theirs)).stderr(OwnedFd::from(others));
    assert_eq!(printed.status().unwrap().code(), Some(0));
    for stream in [out, errors] {
        stream.set_nonblocking(true).unwrap();
        let mut part = [0; 2000];
        assert_eq!([stream.recv(&mut part).unwrap(), stream.recv(&mut part).unwrap()], [900, 901]);
    }
}

fn panics(call: impl FnOnce()) -> Option<std::string::String> {
    let what = catch_unwind(AssertUnwindSafe(call)).err()?;
    match what.downcast::<std::string::String>() {
        Ok(text) => Some(*text),
        Err(what) => what.downcast_ref::<&str>().map(|text| text.to_string()),
    }
}

/// Tests the calls that take the runtime, and the results that a test may return.
fn unit_cases(rt: HostRuntime) {
    fn stops(_: &impl Abort) {}
    fn named(_: &impl Env) {}
    stops(&rt);
    stops(&&rt);
    struct Own;
    impl Abort for Own {}
    stops(&&Own);
    named(&rt);
    fn copied<T: Copy + std::fmt::Debug>(_: T) {}
    fn printed<T: std::fmt::Debug>(_: T) {}
    copied(rt);
    copied(ExitCode::SUCCESS);
    printed((rt.stdin(), rt.stdout(), rt.stderr(), rt.rattle_lines(Global)));
    let hook = std::panic::take_hook();
    std::panic::set_hook(Box::new(|_| ()));
    assertions(rt);
    expectations(rt);
    outcomes();
    std::panic::set_hook(hook);
    insertions();
    assert_eq!(u8::try_from(3), Ok(3));
    assert_eq!((ExitCode::default(), ExitCode::SUCCESS), (ExitCode::from(0), ExitCode::from(0)));
    assert_eq!(ExitCode::FAILURE, ExitCode::from(1));
    for status in 0..=255 {
        assert_eq!(std::process::ExitCode::from(ExitCode::from(status)), std::process::ExitCode::from(status));
    }
    streams();
    runtimes();
}

/// A runtime that notes what is printed with it.
struct Notes(std::cell::RefCell<std::vec::Vec<std::string::String>>);

impl Notes {
    fn note(&self, call: &str, text: impl std::fmt::Display) -> io::Result<()> {
        self.0.borrow_mut().push(std::format!("{call} {text}"));
        Ok(())
    }
}

impl Print for Notes {
    fn print(&self, text: impl std::fmt::Display) -> io::Result<()> {
        self.note("print", text)
    }
    fn println(&self, text: impl std::fmt::Display) -> io::Result<()> {
        self.note("println", text)
    }
}

impl Eprint for Notes {
    fn eprint(&self, text: impl std::fmt::Display) -> io::Result<()> {
        self.note("eprint", text)
    }
    fn eprintln(&self, text: impl std::fmt::Display) -> io::Result<()> {
        self.note("eprintln", text)
    }
}

/// Calls each macro with this expression as the runtime.
macro_rules! each_macro {
    ($rt:expr) => {
        print!($rt; "{}", 1).unwrap();
        println!($rt).unwrap();
        println!($rt; "{}", 2).unwrap();
        eprint!($rt; "{}", 3).unwrap();
        eprintln!($rt).unwrap();
        eprintln!($rt; "{}", 4).unwrap();
        rattle_host::assert!($rt; true);
        rattle_host::assert_eq!($rt; 1, 1);
        rattle_host::assert_ne!($rt; 1, 2);
        assert!(panics(|| rattle_host::panic!($rt; "x")).is_some());
        assert!(panics(|| rattle_host::todo!($rt; "x")).is_some());
        assert!(panics(|| rattle_host::unimplemented!($rt; "x")).is_some());
    };
}

/// The runtime of a macro may be any expression, and is evaluated once.
fn runtimes() {
    struct Owner {
        rt: Notes,
        asked: std::cell::Cell<usize>,
    }
    impl Owner {
        fn asked(&self) -> &Notes {
            self.asked.set(self.asked.get() + 1);
            &self.rt
        }
        fn call_each(&self) {
            each_macro!(self.rt);
            each_macro!(self.asked());
            each_macro!(*[&self.rt][0]);
        }
    }
    let owner = Owner { rt: Notes(Default::default()), asked: Default::default() };
    let hook = std::panic::take_hook();
    std::panic::set_hook(Box::new(|_| ()));
    owner.call_each();
    std::panic::set_hook(hook);
    let wanted = ["print 1", "println ", "println 2", "eprint 3", "eprintln ", "eprintln 4"];
    assert_eq!(owner.rt.0.take(), wanted.repeat(3));
    assert_eq!(owner.asked.get(), 12);
}

fn assertions(rt: HostRuntime) {
    rattle_host::assert!(rt; true);
    rattle_host::assert_eq!(rt; 1, 1, "message");
    rattle_host::assert_ne!(rt; 1, 2);
    let said = |call: &dyn Fn()| panics(call).unwrap_or_default();
    assert_eq!(said(&|| rattle_host::assert!(rt; 1 > 2, "no {}", 1)), "no 1");
    assert!(said(&|| rattle_host::assert_eq!(rt; 1, 2)).contains("left == right"));
    assert!(said(&|| rattle_host::assert_ne!(rt; 2, 2)).contains("left != right"));
    assert_eq!(said(&|| rattle_host::panic!(rt; "why {}", 2)), "why 2");
    assert_eq!(said(&|| rattle_host::panic!(rt)), "explicit panic");
    assert_eq!(said(&|| rattle_host::todo!(rt)), "not yet implemented");
    assert_eq!(said(&|| rattle_host::unimplemented!(rt; "x")), "not implemented: x");
    assert_eq!(said(&|| rattle_host::todo!(rt; "x{}", 1)), "not yet implemented: x1");
    assert_eq!(said(&|| rattle_host::unimplemented!(rt)), "not implemented");
}

fn expectations(rt: HostRuntime) {
    let (good, bad): (Result<u8, u8>, Result<u8, u8>) = (Ok(1), Err(2));
    assert_eq!((good.rattle_expect(&rt, "m"), bad.rattle_expect_err(&rt, "m")), (1, 2));
    assert_eq!(panics(|| _ = bad.rattle_expect(&rt, "m")).unwrap(), "m: 2");
    assert_eq!(panics(|| _ = good.rattle_expect_err(&rt, "m")).unwrap(), "m: 1");
    assert_eq!(Some(1).rattle_expect(&rt, "m"), 1);
    assert_eq!(panics(|| _ = None::<u8>.rattle_expect(&rt, "m")).unwrap(), "m");
    None::<u8>.rattle_expect_err(&rt, "m");
    assert_eq!(panics(|| Some(1).rattle_expect_err(&rt, "m")).unwrap(), "m: Some(1)");
}

fn outcomes() {
    ().judge();
    Ok::<(), u8>(()).judge();
    Ok::<(), Fail>(()).judge();
    // An error only has to be `Debug`. This one isn't `Send`.
    let local = || Err::<(), _>(std::rc::Rc::new(5));
    assert_eq!(panics(|| local().judge()).unwrap(), "error: 5");
    assert_eq!(Ok::<(), std::rc::Rc<u8>>(()).report(), ExitCode::SUCCESS);
    assert_eq!(panics(|| Err::<(), u8>(3).judge()).unwrap(), "error: 3");
    assert_eq!(panics(|| Err::<(), Fail>(Fail::new("why")).judge()).unwrap(), "why");
    assert_eq!(panics(|| Err::<(), Fail>(Fail::new("")).judge()).unwrap(), "");
    assert_eq!(panics(|| Err::<(), Fail>(Fail::from("why")).judge()).unwrap(), "error: \"why\"");
    assert_eq!(panics(|| Err::<(), Fail>(Fail::new("a\n\nb\n")).judge()).unwrap(), "a\n\nb\n");
    assert_eq!(panics(|| Err::<(), Fail>(Fail::new(Flags)).judge()).unwrap(), PLAIN);
    // The error is printed in one line.
    assert_eq!(panics(|| Err::<(), _>(Some(3)).judge()).unwrap(), "error: Some(3)");
    assert_eq!(panics(|| Err::<(), Fail>(Fail::from(Some(3))).judge()).unwrap(), "error: Some(3)");
    let name = std::string::String::from("a");
    assert_eq!(panics(|| Err::<(), &str>(&name).judge()).unwrap(), "error: \"a\"");
    rattle_host::test::run(|_| ());
    assert_eq!(panics(|| rattle_host::test::run(|_| Err::<(), _>(4))).unwrap(), "error: 4");
}

/// If the allocation fails, an index that is too large is no panic.
fn insertions() {
    let results = [1, 3, 4, usize::MAX].map(|index| {
        let mut all = Vec::from_array(Global, [1, 2, 3]).unwrap();
        let mut inserted = None;
        let said = panics(|| inserted = Some(refusing::failing_after(0, || all.insert(index, 9).map_err(|why| why.value))));
        (said, inserted, *all == [1, 2, 3])
    });
    assert!(results.iter().all(|result| *result == (None, Some((Err(9), true)), true)), "{results:?}");
}

/// Tests reads from, and writes to, other readers and writers than the standard streams.
fn streams() {
    let mut bytes = Vec::new(Global);
    assert_eq!((bytes.write(b"ab").unwrap(), bytes.flush().is_ok()), (2, true));
    assert_eq!(b"cd".as_slice().rattle_read_to_end(&mut bytes).unwrap(), 2);
    assert_eq!(*bytes, *b"abcd");
    let mut text = String::from_str(Global, "<").unwrap();
    assert_eq!("\u{df}".as_bytes().rattle_read_to_string(&mut text).unwrap(), 2);
    assert_eq!(b"\xff".as_slice().rattle_read_to_string(&mut text).unwrap_err().kind(), io::ErrorKind::InvalidData);
    assert_eq!(b"a\nb".as_slice().rattle_read_line(&mut text).unwrap(), 2);
    assert_eq!(&*text, "<\u{df}a\n");
    // If the invalid byte isn't the first one, nothing is appended either.
    assert_eq!(b"ab\xff".as_slice().rattle_read_to_string(&mut text).unwrap_err().kind(), io::ErrorKind::InvalidData);
    assert_eq!(b"ab\xff\n".as_slice().rattle_read_line(&mut text).unwrap_err().kind(), io::ErrorKind::InvalidData);
    assert_eq!(&*text, "<\u{df}a\n");
    // The call returns every error of a read except `Interrupted`, even if another read would succeed.
    assert_eq!(Waits(true).rattle_read_to_end(&mut bytes).unwrap_err().kind(), io::ErrorKind::WouldBlock);
    let mut interrupted = Interrupted(3);
    let mut bytes = Vec::new(Global);
    assert_eq!(interrupted.rattle_read_to_end(&mut bytes).unwrap_err().kind(), io::ErrorKind::BrokenPipe);
    assert_eq!(*bytes, *b"x");
    // The line feed and one carriage return before it are removed from a line. Other white space is not.
    let lines: std::vec::Vec<_> = b"a\r\nb \t\r\r\n\n c".as_slice().rattle_lines(Global).map(|line| line.unwrap().len()).collect();
    assert_eq!(lines, [1, 4, 0, 2]);
    // No other character ends a line.
    let line = "a\x0b\x0c\x1c\x1d\x1e\0\u{85}\u{2028}\u{2029}\rb";
    let lines: std::vec::Vec<_> = line.as_bytes().rattle_lines(Global).map(|line| line.unwrap().into_bytes()).collect();
    assert!(lines.len() == 1 && *lines[0] == *line.as_bytes());
    // A line that the buffer contains is taken from it at once.
    let (mut reader, mut text) = (Taken(b"a\x0b\x0c\rb\nc\n", std::vec::Vec::new()), String::new(Global));
    assert_eq!((reader.rattle_read_line(&mut text).unwrap(), &*text), (6, "a\x0b\x0c\rb\n"));
    assert_eq!(reader.1, [6]);
    // A reader may have a size that isn't known when it is compiled.
    let (mut all, mut input, mut text) = (Vec::new(Global), b"a\nb".as_slice(), String::new(Global));
    assert_eq!(<dyn io::BufRead>::rattle_read_line(&mut input, &mut text).unwrap(), 2);
    assert_eq!((<dyn Read>::rattle_read_to_end(&mut input, &mut all).unwrap(), &*text, &*all), (1, "a\n", &b"b"[..]));
    texts_of_slow_readers();
    errors_of_readers();
    let lines: std::vec::Vec<_> = b"a\r\nb\r".as_slice().rattle_lines(Global).map(|line| line.unwrap().len()).collect();
    assert_eq!(lines, [1, 2]);
}

/// A reader that returns one byte at a time, and is interrupted before each byte.
struct Slow<'a>(&'a [u8], bool);

impl Read for Slow<'_> {
    fn read(&mut self, bytes: &mut [u8]) -> io::Result<usize> {
        self.1 = !self.1;
        if self.1 {
            return Err(io::Error::from(io::ErrorKind::Interrupted));
        }
        let len = bytes.len().min(1);
        self.0.read(&mut bytes[..len])
    }
}

/// A character may be split over two reads, and a line over many. No character and no length is treated specially.
fn texts_of_slow_readers() {
    let long = "x\u{df}\u{20ac}\u{1f600}".repeat(7001);
    for wanted in ["\u{feff}a\0\u{1a}\u{df}\u{20ac}\u{1f600}\u{ffff}\r", "\u{1a}", &long] {
        let mut text = String::from_str(Global, "<").unwrap();
        assert_eq!(Slow(wanted.as_bytes(), false).rattle_read_to_string(&mut text).unwrap(), wanted.len());
        assert!(text[1..] == *wanted);
        text.truncate(1);
        assert_eq!(wanted.as_bytes().rattle_read_to_string(&mut text).unwrap(), wanted.len());
        assert!(text[1..] == *wanted);
        let mut lines = io::BufReader::with_capacity(3, Slow(wanted.as_bytes(), false)).rattle_lines(Global);
        assert!(*lines.next().unwrap().unwrap() == *wanted && lines.next().is_none());
        let mut bytes = Vec::new(Global);
        assert_eq!(bytes.write(wanted.as_bytes()).unwrap(), wanted.len());
        assert!(*bytes == *wanted.as_bytes());
    }
    // After a line that isn't UTF-8 the iterator continues with the next line.
    let lines = b"a\n\xff\nb\n".as_slice().rattle_lines(Global);
    let lines: std::vec::Vec<_> = lines.map(|line| line.ok().map(std::string::String::from)).collect();
    assert_eq!(lines, [Some("a".to_string()), None, Some("b".to_string())]);
}

/// An error of any kind but `Interrupted` ends a read. The bytes that were read before the error remain in the vector.
fn errors_of_readers() {
    use io::ErrorKind::*;
    for kind in [NotFound, ConnectionReset, NotConnected, WouldBlock, InvalidInput, InvalidData, TimedOut, WriteZero,
        UnexpectedEof, Other] {
        struct Fails(io::ErrorKind);
        impl Read for Fails {
            fn read(&mut self, _: &mut [u8]) -> io::Result<usize> {
                Err(io::Error::from(std::mem::replace(&mut self.0, BrokenPipe)))
            }
        }
        let (mut bytes, mut text) = (Vec::new(Global), String::new(Global));
        let read = b"ab".as_slice().chain(Fails(kind)).rattle_read_to_end(&mut bytes);
        assert_eq!((read.unwrap_err().kind(), &*bytes), (kind, &b"ab"[..]));
        let read = b"ab".as_slice().chain(Fails(kind)).rattle_read_to_string(&mut text);
        assert_eq!((read.unwrap_err().kind(), &*text), (kind, ""));
        let read = io::BufReader::new(b"ab".as_slice().chain(Fails(kind))).rattle_read_line(&mut text);
        assert_eq!((read.unwrap_err().kind(), &*text), (kind, ""));
    }
}

/// A reader that notes how many bytes are taken from its buffer at once.
struct Taken<'a>(&'a [u8], std::vec::Vec<usize>);

impl Read for Taken<'_> {
    fn read(&mut self, bytes: &mut [u8]) -> io::Result<usize> {
        self.0.read(bytes)
    }
}

impl io::BufRead for Taken<'_> {
    fn fill_buf(&mut self) -> io::Result<&[u8]> {
        Ok(self.0)
    }

    fn consume(&mut self, count: usize) {
        self.0 = &self.0[count..];
        self.1.push(count);
    }
}

/// A reader whose first read is interrupted, whose second reads a byte, and whose third fails.
struct Interrupted(u8);

impl Read for Interrupted {
    fn read(&mut self, bytes: &mut [u8]) -> io::Result<usize> {
        self.0 -= 1;
        match self.0 {
            2 => Err(io::Error::from(io::ErrorKind::Interrupted)),
            1 => {
                bytes[0] = b'x';
                Ok(1)
            }
            _ => Err(io::Error::from(io::ErrorKind::BrokenPipe)),
        }
    }
}

/// A reader whose first read fails with `WouldBlock`, and whose second is at the end of the input.
struct Waits(bool);

impl Read for Waits {
    fn read(&mut self, _: &mut [u8]) -> io::Result<usize> {
        if std::mem::replace(&mut self.0, false) { Err(io::Error::from(io::ErrorKind::WouldBlock)) } else { Ok(0) }
    }
}
