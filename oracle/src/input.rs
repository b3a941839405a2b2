//! Standard input, whose reads tell an error: those of `std::io::Stdin` take input that is
//! closed, or only for writing, for an empty one.

use std::fs::File;
use std::io::BufReader;
use std::os::fd::AsFd as _;

/// Standard input, or why it cannot be read.
pub fn open() -> Result<BufReader<File>, String> {
    if is_closed() {
        return Err("standard input is closed".to_string());
    }
    let file = std::io::stdin().as_fd().try_clone_to_owned();
    file.map(|file| BufReader::new(File::from(file)))
        .map_err(|reason| unread(&reason))
}

/// What is said of a read that failed.
pub fn unread(reason: &std::io::Error) -> String {
    format!("standard input cannot be read: {reason}")
}

/// Whether it was closed when the program began. Rust's start then opens /dev/null there, for
/// reading and writing.
fn is_closed() -> bool {
    let opened = std::fs::read_to_string("/proc/self/fdinfo/0").unwrap_or_default();
    let flags = opened.lines().find_map(|line| line.strip_prefix("flags:"));
    let flags = flags.and_then(|flags| u32::from_str_radix(flags.trim(), 8).ok());
    let name = std::fs::read_link("/proc/self/fd/0");
    name.is_ok_and(|name| name.as_os_str() == "/dev/null")
        && flags.is_some_and(|flags| flags & 3 == 2)
}
