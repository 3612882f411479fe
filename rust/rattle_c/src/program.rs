//! The `main` function of a program, which C's start-up code calls.

/// Defines the `main` function of a program: `main!(start)` calls the function `start` with the runtime, and ends
/// the program with the status that the result of `start` [reports](rattle_host::process::Termination).
///
/// On Linux with glibc the program doesn't run Rust's start-up code, which opens `/dev/null` in place of a standard
/// stream that is closed. So a read from, or a write to, a closed stream fails, as it does in Rattle's programs.
/// Like these, the program ignores the signal SIGPIPE, so a write to a pipe that has no reader returns an error and
/// doesn't end the program. On such a system the macro defines a C function `main`, so the root of the program
/// needs the attribute in the first line of this example. Its program ends with the status that its argument names:
///
/// ```
/// #![cfg_attr(all(not(test), target_os = "linux", target_env = "gnu"), no_main)]
/// use rattle_host::prelude::*;
/// use rattle_host::process::ExitCode;
///
/// fn start(rt: HostRuntime) -> ExitCode {
///     let status = rattle_host::env::args(&rt).ok().and_then(|mut words| words.nth(1));
///     # if status.is_none() {
///     #     return each_status();
///     # }
///     # if status.as_deref() == Some("closed") {
///     #     return ExitCode::from(closed(rt));
///     # }
///     ExitCode::from(status.and_then(|word| word.parse().ok()).unwrap_or(2))
/// }
///
/// rattle_c::main!(start);
/// # // The program starts itself with each of these words.
/// # fn each_status() -> ExitCode {
/// #     for (word, wanted) in [("0", 0), ("1", 1), ("127", 127), ("128", 128), ("200", 200), ("255", 255), ("256", 2)] {
/// #         let child = std::process::Command::new(std::env::current_exe().unwrap()).arg(word).status();
/// #         assert_eq!(child.unwrap().code(), Some(wanted));
/// #     }
/// #     #[cfg(all(target_os = "linux", target_env = "gnu"))]
/// #     streams_that_end();
/// #     ExitCode::SUCCESS
/// # }
/// # // How many of a read, a print and a print to standard error fail, after the end of the input.
/// # fn closed(rt: HostRuntime) -> u8 {
/// #     use std::io::Read;
/// #     let read = rt.stdin().read_to_end(&mut std::vec::Vec::new()).is_err();
/// #     let printed = [rt.print("x").is_err(), rt.eprint("x").is_err()];
/// #     u8::from(read) + u8::from(printed[0]) + u8::from(printed[1])
/// # }
/// # // No stream is opened in place of one that is closed. A pipe that has no reader is an error, and no signal.
/// # fn streams_that_end() {
/// #     use std::process::{Command, Stdio};
/// #     let program = std::env::current_exe().unwrap();
/// #     for (lines, wanted) in [("<&-", 1), (">&-", 1), ("<&- >&- 2>&-", 3)] {
/// #         let shell = std::format!("exec \"$0\" closed </dev/null 2>/dev/null {lines}");
/// #         assert_eq!(Command::new("sh").args(["-c", &shell]).arg(&program).status().unwrap().code(), Some(wanted));
/// #     }
/// #     let piped = || Stdio::piped();
/// #     let mut child = Command::new(program);
/// #     let mut child = child.arg("closed").stdin(piped()).stdout(piped()).stderr(piped()).spawn().unwrap();
/// #     drop((child.stdout.take(), child.stderr.take()));
/// #     assert_eq!(child.wait().unwrap().code(), Some(2));
/// # }
/// # // So that this isn't within another function.
/// # #[cfg(any())]
/// # fn main() {}
/// ```
#[macro_export]
macro_rules! main {
    ($main:ident) => {
        #[cfg(all(not(test), target_os = "linux", target_env = "gnu"))]
        #[allow(unsafe_code)]
        mod start {
            const SIGPIPE: i32 = 13;
            const SIG_IGN: usize = 1;

            unsafe extern "C" {
                safe fn signal(number: i32, action: usize) -> usize;
            }

            #[unsafe(no_mangle)]
            pub extern "C" fn main() -> i32 {
                signal(SIGPIPE, SIG_IGN);
                $crate::rattle_host::rt::status_of(super::$main) as i32
            }
        }

        #[cfg(not(all(not(test), target_os = "linux", target_env = "gnu")))]
        fn main() -> $crate::rattle_host::rust_std::process::ExitCode {
            $crate::rattle_host::rt::status_of($main).into()
        }
    };
}
