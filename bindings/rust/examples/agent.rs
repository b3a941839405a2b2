//! The agent's night: checks the job file, and only if it fits has the databases paused and the snapshot taken.
//!
//!     agent JOBS PAUSE SNAPSHOT      two commands, each called with the job file
//!
//! Exit status: 1 if the file has mistakes or a command failed, 2 if the file could not be read or judged.

use std::process::{Command, ExitCode};

use deckmarten::{check, Trouble};

fn night(jobs: &str, commands: [&str; 2]) -> Result<(), (u8, String)> {
    let text = std::fs::read(jobs).map_err(|reason| (2, format!("cannot be read: {reason}")))?;
    let document = check(&text).map_err(|trouble| match trouble {
        Trouble::Mistakes(_) => (1, trouble.to_string()),
        Trouble::Refused { .. } => (2, trouble.to_string()),
    })?;
    println!("{jobs}: {} tables", document.index().headers().count());
    for command in commands {
        match Command::new(command).arg(jobs).status() {
            Ok(status) if status.success() => {}
            Ok(status) => return Err((1, format!("{command} failed: {status}"))),
            Err(reason) => return Err((1, format!("{command} cannot be called: {reason}"))),
        }
    }
    Ok(())
}

fn main() -> ExitCode {
    let words: Vec<String> = std::env::args().skip(1).collect();
    let [jobs, pause, snapshot] = words.as_slice() else {
        eprintln!("usage: agent JOBS PAUSE SNAPSHOT");
        return ExitCode::from(2);
    };
    match night(jobs, [pause, snapshot]) {
        Ok(()) => ExitCode::SUCCESS,
        Err((status, reason)) => {
            eprintln!("agent: {jobs}: {reason}");
            ExitCode::from(status)
        }
    }
}
