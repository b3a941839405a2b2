//! Texts: each row of the table in docs/DIFFERENCES.md on where the lexer's tokens are
//! not those of TOML 1.0.0, and the refusals of texts.

use oracle::modes;
use oracle::texts;
use oracle::texts::Rooms;
use oracle::texts::Text;
use oracle::texts::Verdict;
use oracle::Judged;

/// The text's tokens as kind and end, without the Eof; the first begins at the base.
fn tokens(text: &str) -> Vec<(u16, usize)> {
    let (_, mut tokens) = texts::tokens(text.as_bytes()).unwrap();
    assert_eq!(tokens.pop().unwrap().kind().number(), 16);
    let pair = |token: &oracle::lexer::Token| (token.kind().number(), token.span().end());
    tokens.iter().map(pair).collect()
}

/// The messages of the text's reports if its run is not quiet.
fn reports(text: &str) -> Option<Vec<u32>> {
    match texts::judge(text.as_bytes()).unwrap() {
        Text::Tokens {
            judged: Judged::Walked(lists, None),
            ..
        } if lists.is_quiet() => None,
        Text::Tokens {
            judged: Judged::Walked(lists, None),
            ..
        } => Some(lists.errors.iter().map(|error| error[0]).collect()),
        _ => panic!("{text:?} is refused"),
    }
}

fn assert_tokens(rows: &[(&str, &[(u16, usize)])]) {
    for (text, expected) in rows {
        assert_eq!(tokens(text), *expected, "{text:?}");
    }
}

fn assert_quiet(texts: &[&str]) {
    for text in texts {
        assert_eq!(reports(text), None, "{text:?}");
    }
}

#[test]
fn strings_that_are_not_closed() {
    assert_tokens(&[
        ("'", &[(11, 1)]),
        ("\"", &[(12, 1)]),
        ("'a\n", &[(11, 2), (10, 3)]),
        ("\"a\n", &[(12, 2), (10, 3)]),
        ("'a\r\n", &[(11, 3), (10, 4)]),
        ("\"a\r\n", &[(12, 3), (10, 4)]),
        ("'''", &[(13, 3)]),
        ("''''", &[(13, 4)]),
        ("'''''", &[(13, 5)]),
        ("'''a\nb", &[(13, 6)]),
        ("\"\"\"", &[(14, 3)]),
        ("\"\"\"a\nb", &[(14, 6)]),
        ("\"\"\"\\\"\"\"", &[(14, 7)]),
        ("\"\\", &[(12, 2)]),
        ("\"\\\n", &[(12, 2), (10, 3)]),
        ("\"\"\"\\", &[(14, 4)]),
        ("'a\n'", &[(11, 2), (10, 3), (11, 4)]),
    ]);
    assert_quiet(&[
        "a='",
        "a=\"",
        "a='b\n",
        "a='b\r\n",
        "a='''",
        "a=\"\"\"",
        "a=\"\\",
        "a=\"\"\"\\\"\"\"",
        "a='''\n[b]\nc=1\n",
    ]);
    let Text::Tokens { judged, .. } = texts::judge(b"a='''\n[b]\nc=1\n").unwrap() else {
        panic!("refused");
    };
    assert_eq!(judged.counts(), (3, 0));
}

#[test]
fn quotes_behind_multi_line_strings() {
    assert_tokens(&[
        ("''''''", &[(13, 6)]),
        ("'''''''", &[(13, 7)]),
        ("''''''''", &[(13, 8)]),
        ("'''''''''", &[(13, 8), (11, 9)]),
        ("''''''''''", &[(13, 8), (11, 10)]),
        ("'''a''''''", &[(13, 9), (11, 10)]),
    ]);
    assert_quiet(&["a=''''''", "a='''''''", "a=''''''''"]);
    assert_eq!(reports("a='''''''''"), Some(vec![23]));
    assert_eq!(reports("a='''a''''''"), Some(vec![23]));
}

#[test]
fn what_is_inside_strings_and_comments() {
    assert_tokens(&[
        ("\"\\q\"", &[(12, 4)]),
        ("'x\ry'", &[(11, 5)]),
        ("\"a\rb\"", &[(12, 5)]),
        ("'''\r'''", &[(13, 7)]),
        ("#\0\u{7f}", &[(9, 3)]),
        ("\"\0\"", &[(12, 3)]),
        ("#a\rb", &[(9, 2), (10, 3), (15, 4)]),
    ]);
    assert_quiet(&[
        "a=\"\\q\"",
        "a='x\ry'",
        "a='''\r'''",
        "#\0\u{7f}",
        "a=\"\0\"",
    ]);
}

#[test]
fn carriage_returns_alone() {
    assert_tokens(&[("\r", &[(10, 1)]), ("\r\r\n", &[(10, 1), (10, 3)])]);
    assert_quiet(&["\r", "a=1\rb=2", "\r\r\n"]);
    assert_eq!(reports("#a\rb"), Some(vec![5]));
}

#[test]
fn atoms() {
    for atom in [
        "\0", "\u{7f}", "\u{b}", "\u{c}", "\\", "@", "+", "é", "\u{a0}", "\u{85}", "\u{2028}",
        "\u{3000}",
    ] {
        assert_eq!(tokens(atom), [(15, atom.len())]);
        assert_quiet(&[&format!("a={atom}"), &format!("{atom}=1")]);
    }
    assert_tokens(&[
        ("a\"b\"", &[(15, 4)]),
        ("a'b c'", &[(15, 3), (8, 4), (15, 6)]),
        ("a\"#\"", &[(15, 2), (9, 4)]),
        ("\"a\"b", &[(12, 3), (15, 4)]),
        ("'a''b'", &[(11, 3), (11, 6)]),
    ]);
    assert_quiet(&["a=1\"2\"", "a=1'2 3'", "a=1\"#\"", "x=[1']", "[1']"]);
    assert_eq!(reports("a=\"a\"b"), Some(vec![23]));
    assert_eq!(reports("a='a''b'"), Some(vec![23]));
}

#[test]
fn byte_order_marks() {
    assert_tokens(&[
        ("\u{feff}", &[]),
        ("\u{feff}\u{feff}", &[(15, 6)]),
        ("\n\u{feff}", &[(10, 1), (15, 4)]),
        ("a=\u{feff}1", &[(15, 1), (2, 2), (15, 6)]),
    ]);
    assert_quiet(&[
        "\u{feff}",
        "\u{feff}a=1",
        "a=\u{feff}1",
        "\u{feff}\u{feff}=1",
    ]);
    assert_eq!(reports("\n\u{feff}"), Some(vec![5]));
    assert_eq!(reports("\u{feff}\u{feff}"), Some(vec![5]));
    assert_eq!(texts::tokens("\u{feff}".as_bytes()).unwrap().0, 3);
}

#[test]
fn scalars_and_keys_that_are_not_judged() {
    assert_quiet(&[
        "a=.", "a=..", "a=1.", "a=1 2", "x=[1. 5]", "a=b", "+=1", "''''''=1", "a=1\na=1",
    ]);
    assert_eq!(reports("a=1 ."), Some(vec![23]));
    assert_eq!(reports("x=[1 .5]"), Some(vec![10]));
}

#[test]
fn refusals_and_their_order() {
    let lexed = |bytes: &[u8], room| {
        let lexed = texts::judge(bytes).unwrap().lexed(room);
        (lexed.refusal, lexed.place, lexed.base, lexed.records)
    };
    let long = vec![0xff; texts::MAX_BYTES + 1];
    assert_eq!(lexed(&long, 0), (9, texts::MAX_BYTES, 0, 0));
    assert_eq!(lexed(&long[1..], 0), (10, 0, 0, 0));
    assert_eq!(lexed(b"a\xed\xa0\x80", 0), (10, 1, 0, 0));
    assert_eq!(lexed(b"\xc3\xa9\xe2\x82", 99), (10, 2, 0, 0));
    assert_eq!(lexed(b"a=1", 23), (11, 0, 0, 4));
    assert_eq!(lexed(b"a=1", 24), (0, 0, 0, 4));
    assert_eq!(lexed(b"\xef\xbb\xbfa", 12), (0, 0, 3, 2));
    assert_eq!(lexed(b"\xef\xbb\xbfa", 11), (11, 0, 0, 2));
}

#[test]
fn the_joined_entry_and_the_verdict() {
    let room = |record_bytes, event_words, error_words| Rooms {
        record_bytes,
        event_words,
        error_words,
    };
    let parsed = |bytes: &[u8], room: Rooms| {
        let answer = texts::judge(bytes).unwrap().parsed(modes::CRATE, room);
        let oracle::texts::Lexed {
            refusal,
            place,
            base,
            records,
        } = answer.lexed;
        (refusal, place, base, records, answer.events, answer.errors)
    };
    assert_eq!(parsed(b"a=1", room(24, 12, 0)), (0, 0, 0, 4, 3, 0));
    assert_eq!(parsed(b"a=1", room(24, 11, 0)), (7, 0, 0, 4, 3, 0));
    assert_eq!(parsed(b"a=1", room(23, 12, 0)), (11, 0, 0, 4, 0, 0));
    assert_eq!(parsed(b"\xef\xbb\xbfa", room(12, 4, 0)), (8, 0, 3, 2, 1, 1));
    let many = vec![b'\n'; 65_536];
    assert_eq!(
        parsed(&many, room(999_999, 0, 0)),
        (2, 65_536, 0, 65_537, 0, 0)
    );
    let verdict = |bytes: &[u8], record_bytes, event_words| {
        let Verdict {
            fits,
            refusal,
            place,
        } = texts::judge(bytes)
            .unwrap()
            .verdict(record_bytes, event_words);
        (fits, refusal, place)
    };
    assert_eq!(verdict(b"a=1", 24, 16), (true, 0, 0));
    assert_eq!(verdict(b"a=", 24, 16), (false, 0, 0));
    assert_eq!(verdict(b"a=1", 24, 15), (false, 7, 0));
    assert_eq!(verdict(b"a=1", 23, 15), (false, 11, 0));
    assert_eq!(verdict(&many, 999_999, 0), (false, 2, 65_536));
    let deep = format!("a={}", "[".repeat(65));
    assert_eq!(verdict(deep.as_bytes(), 999, 0), (false, 6, 66));
}
