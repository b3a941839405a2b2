//! The texts of the benchmark: always the same for a case and a size.

use crate::cases;

/// The text of a case, if there is one of that name. The size counts what its comment says.
pub fn text(case: &str, size: usize) -> Option<Vec<u8>> {
    let text = match case {
        // jobs
        "jobs" => cases::jobs(size, 0),
        "damaged" => cases::jobs(size, 3),
        "crlf" => cases::jobs(size, 0).replace('\n', "\r\n"),
        // lines
        "comments" => format!("# {}\n", WORDS.repeat(3)).repeat(size),
        "strings" => {
            format!("a = \"{}\"\nb = '{}'\n", WORDS.repeat(3), WORDS.repeat(3)).repeat(size)
        }
        "multiline" => {
            let body = format!("\n{WORDS}").repeat(8);
            format!("a = \"\"\"{body}\\\n  end\"\"\"\nb = '''{body}'''\n").repeat(size)
        }
        "atoms" => format!(
            "{} = {}\n",
            "long-bare_key".repeat(12),
            "1234567890".repeat(16)
        )
        .repeat(size),
        "scripts" => {
            "# Größe, Höhe, Füße: ärgerlich für müde Prüfer 🦫🌙📦 über Öfen\n".repeat(size)
        }
        // jobs, and a table behind them
        "jobs-last" => cases::jobs(size, 0) + "[last]\n",
        // tables, each with a line, and one behind them
        "tables" => {
            (0..size)
                .map(|number| format!("[jobs.n{number}]\nledger = {number}\n"))
                .collect::<String>()
                + "[last]\n"
        }
        // lines, each with an error
        "lines" => "a\n".repeat(size),
        // lines, each with a key that the Rust invents in silence
        "silent" => "[=a]\n".repeat(size),
        // commas on one line, each an error
        "commas-shown" => format!("x=[{}", ",".repeat(size)),
        // scalars
        "scalars" => cases::scalars(size),
        // pairs of bytes, or bytes
        "returns" => "#\r".repeat(size),
        "apostrophes" => "'a'".repeat(size),
        "quotes" => format!("a={}", "\"".repeat(size)),
        "literal" => format!("a={}", "'".repeat(size)),
        "backslashes" => format!("a=\"{}", "\\".repeat(size)),
        "escapes" => format!("a=\"\"\"{}", "\\\"".repeat(size)),
        "brackets" => "[".repeat(size),
        _ => return None,
    };
    Some(text.into_bytes())
}

/// Some seventy bytes of a sentence.
const WORDS: &str = "the ledger of the main office is copied every night at half past two. ";
