//! What a program was called with, and how it ends.

use std::ffi::OsString;
use std::io::{self, ErrorKind, Write};
use std::process::ExitCode;

/// The program's name in messages, and the words behind it.
pub struct Words {
    /// The name by which it was called, without its folder.
    pub name: String,
    /// The options, in order.
    pub options: Vec<String>,
    /// The files, in order.
    pub files: Vec<OsString>,
}

impl Words {
    /// What this process was called with. Behind `--` all words are files, and `-` is one.
    pub fn given(name: &str) -> Words {
        let mut words = std::env::args_os();
        let called = words.next().unwrap_or_default();
        let called = std::path::Path::new(&called).file_name().map(|name| name.to_string_lossy().into_owned());
        let mut given = Words { name: called.unwrap_or(name.to_string()), options: Vec::new(), files: Vec::new() };
        let mut options = true;
        for word in words {
            match word.to_str() {
                Some("--") if options => options = false,
                Some(option) if options && option.starts_with('-') && option != "-" => given.options.push(option.to_string()),
                _ => given.files.push(word),
            }
        }
        given
    }

    /// Whether help is asked for.
    pub fn help(&self) -> bool {
        self.options.iter().any(|option| option == "--help" || option == "-h")
    }

    /// The first option that is not one of these.
    pub fn unknown(&self, known: &[&str]) -> Option<&str> {
        self.options.iter().map(String::as_str).find(|option| !known.contains(option))
    }

    /// The help, for the name by which the program was called: in a checkout that of the script.
    pub fn helped(&self, text: &str, name: &str) -> String {
        let script = format!("./{name}");
        if self.name == name {
            text.to_string()
        } else {
            text.replace(&script, &self.name)
        }
    }

    /// Prints a text, and ends with 0.
    pub fn print(&self, text: &str) -> ExitCode {
        let mut to = io::stdout().lock();
        match to.write_all(text.as_bytes()).and_then(|()| to.flush()) {
            Ok(()) => ExitCode::SUCCESS,
            Err(reason) => self.unwritten(&reason),
        }
    }

    /// Says in one line on standard error what is wrong, and ends with 2.
    pub fn wrong(&self, reason: &str) -> ExitCode {
        let _ = writeln!(io::stderr(), "{}: {reason}", self.name);
        ExitCode::from(2)
    }

    /// Ends with 2 where something could not be printed. Whoever has closed the pipe has heard enough, and is told nothing.
    pub fn unwritten(&self, reason: &io::Error) -> ExitCode {
        if reason.kind() == ErrorKind::BrokenPipe {
            return ExitCode::from(2);
        }
        self.wrong(&format!("cannot print: {reason}"))
    }
}
