//! The token lists of the benchmark: always the same for a case and a size.

use std::fmt::Write as _;

use oracle::notation;
use oracle::prng::Prng;
use oracle::records;

/// How many arrays may be open at once.
const DEPTH: usize = oracle::LEVELS;

/// A token's kind and length.
type Pair = (u16, u32);

/// The records of a case, if there is one of that name. In `commas`, `unclosed` and `fallen` document.rs searches backward a lot: for a comma
/// that is nowhere, over newlines, and for a comma far back. `lines` has an error on each line; in `fallen` every other error is on the first.
pub fn records(case: &str, size: usize) -> Option<Vec<u8>> {
    let pairs = match case {
        "jobs" => tokens(&jobs(size, 0)),
        "damaged" => tokens(&jobs(size, 3)),
        "nested" => {
            tokens(&format!("x = {}1{}\n", "[".repeat(DEPTH), "]".repeat(DEPTH)).repeat(size))
        }
        "scalars" => tokens(&scalars(size)),
        "commas" => tokens(&"x = {a=}\n".repeat(size)),
        "unclosed" => unclosed(size),
        "lines" => tokens(&"a\n".repeat(size)),
        "fallen" => tokens(&format!("x=[1,\n{}", "{a}\n".repeat(size))),
        _ => return None,
    };
    Some(records::from_pairs(&pairs))
}

/// The tokens of a text, Eof last.
fn tokens(text: &str) -> Vec<Pair> {
    notation::pairs(text, true)
}

/// Slips of people who write such a file: what is replaced in a job, and by what.
const SLIPS: [(&str, &str); 10] = [
    ("[[job]]", "[[job]"),
    ("name = ", "name "),
    ("enabled = ", "enabled = = "),
    ("{ host", "{ , host"),
    (", port", " port"),
    ("' }", "', }"),
    ("retain.daily", "retain..daily"),
    ("ratio = 0.", "ratio = \n0."),
    ("\"*.tmp\",", "\"*.tmp\""),
    ("'lost+found']", "'lost+found', }]"),
];

/// A file of backup jobs as people write them, each with this many of the slips.
pub fn jobs(size: usize, slips: usize) -> String {
    let mut prng = Prng::new(1);
    let mut text =
        String::from("# Backup jobs\n\n[agent]\nname = \"store-7\"\nlog.level = 'info'\n");
    for number in 0..size {
        let mut job = String::new();
        write_job(&mut job, &mut prng, number).expect("a string takes all");
        for slip in 0..slips {
            let (right, wrong) = SLIPS[(number + 3 * slip) % SLIPS.len()];
            job = job.replacen(right, wrong, 1);
        }
        text += &job;
    }
    text
}

fn write_job(text: &mut String, prng: &mut Prng, number: usize) -> std::fmt::Result {
    let host = prng.pick(&["ledger", "mail", "wiki", "build"]);
    let enabled = !prng.one_in(5);
    let [minute, hour, port] = [60, 24, 100].map(|bound| prng.below(bound));
    let [month, day] = [12, 28].map(|bound| 1 + prng.below(bound));
    let [daily, weekly] = [9, 4].map(|bound| 2 + prng.below(bound));
    write!(
        text,
        r#"
[[job]] # number {number}
name = "{host}-{number:03}"
enabled = {enabled}
schedule = "{minute} {hour} * * *"
source = {{ host = "{host}.example", port = {port}, path = '/srv/{host}' }}
since = 2025-{month:02}-{day:02} 03:00:00
retain.daily = {daily}
retain.weekly = {weekly}
ratio = 0.{port}
exclude = ["*.tmp", "cache/**", 'lost+found']
"#
    )?;
    if prng.one_in(2) {
        let targets = "    \"disk:/backup\",  # fast\n    \"s3://store/backup\",\n";
        write!(text, "targets = [\n{targets}]\n")?;
    }
    if prng.one_in(3) {
        write!(
            text,
            "\n[job.notify]\nmail = [\"ops@{host}.example\"]\n\"on failure\" = true\n"
        )?;
    }
    Ok(())
}

/// One array of this many integers and strings, ten on a line.
pub fn scalars(size: usize) -> String {
    let mut text = String::from("x = [\n");
    for number in 0..size {
        let end = if number % 10 == 9 { ",\n" } else { "," };
        match number % 3 {
            0 => write!(text, "\"item {number}\"{end}"),
            _ => write!(text, "{number}{end}"),
        }
        .expect("a string takes all");
    }
    text + "]\n"
}

/// As many arrays as may be open, then this many newlines and no Eof: at the end each array looks back for the last significant token.
fn unclosed(size: usize) -> Vec<Pair> {
    notation::pairs(
        &format!("x = {}{}", "[".repeat(DEPTH), "\n".repeat(size)),
        false,
    )
}

/// One array too many, then these records: all are checked, and the walk stops before it comes to them.
pub fn stopped_at_once(bytes: &[u8]) -> Vec<u8> {
    let too_many = notation::pairs(&format!("x={}", "[".repeat(DEPTH + 1)), false);
    [records::from_pairs(&too_many), bytes.to_vec()].concat()
}
