//! Build script: sees that document.rs and lexer/mod.rs are the original texts, and
//! derives from the first the copy that counts unfinished arrays and inline tables
//! (refusal 6).
//!
//! The copy is made by text substitution only. Each pattern must occur exactly
//! once, or the build fails.

use std::path::Path;

mod sha256;

/// SHA-256 of the files taken from crate toml_parser 1.0.4.
const ORIGINALS: [(&str, &str); 2] = [
    (
        "src/parser/document.rs",
        "161bd75d9d7f17b8574fdc1f5d9207d95f3c976dcbe5f5357eb5855a6dcfd73f",
    ),
    (
        "src/lexer/mod.rs",
        "729c8d5a2c680d039dbabee4ec0279a4f91ddfcb87214c71728ab41f56b633c9",
    ),
];

/// What is replaced in the counted copy, and by what. The receiver's type becomes
/// one that also counts; the two functions that open real arrays and inline tables
/// get a function around them that asks for a level and gives it back.
const SUBSTITUTIONS: [(&str, &str); 3] = [
    (
        "use super::EventReceiver;\n",
        "use super::CountingReceiver as EventReceiver;\n",
    ),
    (
        "fn on_array_open(\n",
        "fn on_array_open(
    tokens: &mut Stream<'_>,
    open: &Token,
    receiver: &mut dyn EventReceiver,
    error: &mut dyn ErrorSink,
) {
    if super::enter_level(tokens, open, receiver) {
        on_array_open_uncounted(tokens, open, receiver, error);
        receiver.leave();
    }
}

fn on_array_open_uncounted(\n",
    ),
    (
        "fn on_inline_table_open(\n",
        "fn on_inline_table_open(
    tokens: &mut Stream<'_>,
    open: &Token,
    receiver: &mut dyn EventReceiver,
    error: &mut dyn ErrorSink,
) {
    if super::enter_level(tokens, open, receiver) {
        on_inline_table_open_uncounted(tokens, open, receiver, error);
        receiver.leave();
    }
}

fn on_inline_table_open_uncounted(\n",
    ),
];

fn main() {
    for watched in ["build.rs", "sha256.rs"] {
        println!("cargo:rerun-if-changed={watched}");
    }
    // `Lexer::into_vec` is there only with the crate's feature `alloc`
    println!("cargo:rustc-cfg=feature=\"alloc\"");
    let [document, _lexer] = ORIGINALS.map(original);

    let mut counted = document;
    for (pattern, replacement) in SUBSTITUTIONS {
        let found = counted.matches(pattern).count();
        assert_eq!(
            found, 1,
            "pattern must occur once in document.rs: {pattern:?}"
        );
        counted = counted.replacen(pattern, replacement, 1);
    }
    let out = std::env::var_os("OUT_DIR").expect("cargo sets OUT_DIR");
    let target = Path::new(&out).join("document_counted.rs");
    std::fs::write(target, counted).expect("the counted copy cannot be written");
}

/// The text of the file, which must have this digest.
fn original((path, expected): (&str, &str)) -> String {
    println!("cargo:rerun-if-changed={path}");
    let text = std::fs::read_to_string(path);
    let text = text.unwrap_or_else(|error| panic!("{path} cannot be read: {error}"));
    let digest = sha256::hex_digest(text.as_bytes());
    assert_eq!(digest, expected, "{path} is not the original text");
    text
}
