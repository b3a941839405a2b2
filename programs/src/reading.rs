//! Reads a file or standard input, no more of it than the library takes and one byte, so that a text which never ends is read no further.

use std::ffi::OsStr;
use std::fs::File;
use std::io::{self, ErrorKind, Read};
use std::os::fd::AsFd;

use deckmarten::limits::MAX_BYTES;

use crate::names::shown;

/// The word that stands for standard input.
pub const STANDARD_INPUT: &str = "-";

/// The bytes of a file, or of standard input; or a line that says why there are none. What is longer than the library takes is cut one byte behind that, and the
/// library refuses it.
pub fn read(name: &OsStr) -> Result<Vec<u8>, String> {
    let opened = if name == STANDARD_INPUT { standard_input() } else { File::open(name) };
    opened.and_then(whole).map_err(|reason| match reason.kind() {
        ErrorKind::NotFound => format!("there is no file {}", shown(name)),
        ErrorKind::PermissionDenied => format!("{} cannot be read: permission denied", shown(name)),
        _ => format!("{} cannot be read: {reason}", shown(name)),
    })
}

/// Standard input as a file, whose reads tell an error: those of `std::io::Stdin` take input that cannot be read for an empty one.
fn standard_input() -> io::Result<File> {
    if is_closed() {
        return Err(io::Error::other("it is closed"));
    }
    io::stdin().as_fd().try_clone_to_owned().map(File::from)
}

/// Whether standard input was closed when the program began. Rust's start then opens /dev/null there, for reading and writing: it would be read as an
/// empty text, which fits.
fn is_closed() -> bool {
    let opened = std::fs::read_to_string("/proc/self/fdinfo/0").unwrap_or_default();
    let flags =
        opened.lines().find_map(|line| line.strip_prefix("flags:")).and_then(|flags| u32::from_str_radix(flags.trim(), 8).ok());
    let is_null = std::fs::read_link("/proc/self/fd/0").is_ok_and(|name| name == OsStr::new("/dev/null"));
    is_null && flags.is_some_and(|flags| flags & 3 == 2)
}

fn whole(file: File) -> io::Result<Vec<u8>> {
    let (most, about) = (u64::from(MAX_BYTES) + 1, file.metadata()?);
    if about.is_dir() {
        return Err(io::Error::other("it is a folder"));
    }
    let mut bytes = Vec::with_capacity(about.len().min(most) as usize + 1);
    file.take(most).read_to_end(&mut bytes)?;
    Ok(bytes)
}
