//! The arguments of the program.
use crate::io;
use crate::rt::Env;
use rattle_std::string::String;
use rattle_std::vec::{IntoIter, Vec};
use rust_std::env;

/// An iterator over the arguments of the program. The first argument is usually the program's name.
pub type Args = IntoIter<String>;

/// Returns an iterator over the arguments that the program was started with.
///
/// In Rust's std this call takes no runtime, and the iterator panics at an argument that isn't valid UTF-8.
///
/// # Errors
///
/// It fails with `InvalidData` if an argument isn't valid UTF-8, and with `OutOfMemory` if the allocation for the list
/// of arguments fails. Rust's `args_os` copies each argument before; if an allocation of that call fails, the program
/// ends.
pub fn args<R: Env>(_: &R) -> io::Result<Args> {
    let mut all = Vec::new(rattle_std::alloc::Global);
    for argument in env::args_os() {
        let Ok(text) = argument.into_string() else {
            return Err(io::Error::from(io::ErrorKind::InvalidData));
        };
        all.push(String::from(text))?;
    }
    Ok(all.into_iter())
}
