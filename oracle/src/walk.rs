//! Runs the original and its counted copy over tokens and keeps what they give as
//! words, with the line of each error, which the original does not give.
//!
//! The original calls itself for nested values, for `=` after `=` and for content
//! after comments, so a long list is walked on a thread with a large stack.

use std::cell::Cell;

use crate::decoder::Encoding;
use crate::lexer::Token;
use crate::lines::Lines;
use crate::numbers;
use crate::numbers::ERROR_WORDS;
use crate::parser;
use crate::parser::CountingReceiver;
use crate::parser::EventReceiver;
use crate::records::MAX_RECORDS;
use crate::ErrorSink;
use crate::ParseError;
use crate::Span;

/// The four functions that can be asked.
#[derive(Copy, Clone, PartialEq, Eq, Debug)]
pub enum Entry {
    Document,
    Key,
    SimpleKey,
    Value,
}

/// All entries with their names.
pub const ENTRIES: [(&str, Entry); 4] = [
    ("document", Entry::Document),
    ("key", Entry::Key),
    ("simple_key", Entry::SimpleKey),
    ("value", Entry::Value),
];

impl Entry {
    /// The entry of this name, if there is one.
    pub fn from_name(name: &str) -> Option<Self> {
        ENTRIES
            .iter()
            .find(|known| known.0 == name)
            .map(|known| known.1)
    }

    /// Its name.
    pub fn name(self) -> &'static str {
        let found = ENTRIES.iter().find(|known| known.1 == self);
        found.expect("each entry has a name").0
    }
}

/// What a walk gave: events of four words, and errors, in order.
#[derive(Clone, Default, PartialEq, Eq, Debug)]
pub struct Lists {
    pub events: Vec<[u32; 4]>,
    pub errors: Vec<[u32; ERROR_WORDS]>,
    /// Of each error how many events there were before it.
    pub events_before: Vec<usize>,
}

impl Lists {
    /// Whether there is no error and no event of empty span.
    pub fn is_quiet(&self) -> bool {
        self.errors.is_empty() && self.events.iter().all(|event| event[2] != event[3])
    }

    /// Whether a key is a multi-line string: a simple_key event with encoding 3 or 4.
    pub fn has_multi_line_key(&self) -> bool {
        self.events
            .iter()
            .any(|event| event[0] == 5 && [3, 4].contains(&event[1]))
    }
}

/// The unchanged original over these tokens.
pub fn unchanged(entry: Entry, tokens: &[Token]) -> Lists {
    let parse = match entry {
        Entry::Document => parser::parse_document,
        Entry::Key => parser::parse_key,
        Entry::SimpleKey => parser::parse_simple_key,
        Entry::Value => parser::parse_value,
    };
    with_stack(tokens.len(), || {
        let (stop, count) = (Cell::new(None), Cell::new(0));
        let mut events = Events {
            list: Vec::new(),
            count: &count,
            stop: &stop,
            levels: 0,
        };
        let mut errors = Errors {
            list: Vec::new(),
            events_before: Vec::new(),
            count: &count,
            lines: Lines::of(tokens),
            stop: &stop,
        };
        parse(tokens, &mut events, &mut errors);
        Lists {
            events: events.list,
            errors: errors.list,
            events_before: errors.events_before,
        }
    })
}

/// The counted copy over these tokens with this many levels: what was given until
/// the end or the stop, and the record the walk stopped before, if it did.
pub fn counted(entry: Entry, tokens: &[Token], levels: usize) -> (Lists, Option<usize>) {
    let parse = match entry {
        Entry::Document => parser::counted_document,
        Entry::Key => parser::counted_key,
        Entry::SimpleKey => parser::counted_simple_key,
        Entry::Value => parser::counted_value,
    };
    with_stack(tokens.len(), || {
        let (stop, count) = (Cell::new(None), Cell::new(0));
        let mut events = Events {
            list: Vec::new(),
            count: &count,
            stop: &stop,
            levels,
        };
        let mut errors = Errors {
            list: Vec::new(),
            events_before: Vec::new(),
            count: &count,
            lines: Lines::of(tokens),
            stop: &stop,
        };
        parse(tokens, &mut events, &mut errors);
        assert!(
            stop.get().is_some() || events.levels == levels,
            "levels not given back"
        );
        (
            Lists {
                events: events.list,
                errors: errors.list,
                events_before: errors.events_before,
            },
            stop.get(),
        )
    })
}

/// Stack enough for one record, in builds without optimisation too.
const BYTES_PER_RECORD: usize = 8 * 1024;

thread_local! {
    /// Whether this thread's stack is enough for the longest list.
    static LARGE: Cell<bool> = const { Cell::new(false) };
}

/// Runs `work` on a thread whose stack is enough for the longest list, so that no
/// walk in it needs a thread of its own. For programs that walk many lists.
pub fn on_large_stack<R: Send>(work: impl FnOnce() -> R + Send) -> R {
    on_stack_for(MAX_RECORDS, || {
        LARGE.set(true);
        work()
    })
}

/// Runs `walk` here if the list is short or the stack large, else on a thread with
/// stack enough.
fn with_stack<R: Send>(records: usize, walk: impl FnOnce() -> R + Send) -> R {
    const SHORT: usize = 256;
    if records <= SHORT || LARGE.get() {
        walk()
    } else {
        on_stack_for(records, walk)
    }
}

/// Runs `work` on a thread with stack enough for a list of this many records, and
/// panics as it panics.
fn on_stack_for<R: Send>(records: usize, work: impl FnOnce() -> R + Send) -> R {
    std::thread::scope(|scope| {
        let size = records * BYTES_PER_RECORD + 1024 * 1024;
        let builder = std::thread::Builder::new().stack_size(size);
        let thread = builder
            .spawn_scoped(scope, work)
            .expect("a thread with a large stack");
        thread
            .join()
            .unwrap_or_else(|panic| std::panic::resume_unwind(panic))
    })
}

/// Keeps events until the walk is stopped, and answers true at each open.
struct Events<'a> {
    list: Vec<[u32; 4]>,
    count: &'a Cell<usize>,
    stop: &'a Cell<Option<usize>>,
    levels: usize,
}

impl Events<'_> {
    fn keep(&mut self, kind: u32, span: Span, encoding: Option<Encoding>) {
        if self.stop.get().is_none() {
            let [start, end] = numbers::span_words(span);
            self.list
                .push([kind, numbers::encoding_number(encoding), start, end]);
            self.count.set(self.list.len());
        }
    }
}

/// The functions of events that carry a span alone, with their numbers.
macro_rules! plain_events {
    ($($name:ident $number:literal)*) => {
        $(fn $name(&mut self, span: Span, _error: &mut dyn ErrorSink) {
            self.keep($number, span, None);
        })*
    };
}

impl EventReceiver for Events<'_> {
    plain_events! {
        std_table_open 1
        std_table_close 2
        array_table_open 3
        array_table_close 4
        key_sep 6
        key_val_sep 7
        value_sep 9
        array_close 11
        inline_table_close 13
        whitespace 14
        comment 15
        newline 16
        error 17
    }

    fn simple_key(&mut self, span: Span, kind: Option<Encoding>, _error: &mut dyn ErrorSink) {
        self.keep(5, span, kind);
    }

    fn scalar(&mut self, span: Span, kind: Option<Encoding>, _error: &mut dyn ErrorSink) {
        self.keep(8, span, kind);
    }

    fn array_open(&mut self, span: Span, _error: &mut dyn ErrorSink) -> bool {
        self.keep(10, span, None);
        true
    }

    fn inline_table_open(&mut self, span: Span, _error: &mut dyn ErrorSink) -> bool {
        self.keep(12, span, None);
        true
    }
}

impl CountingReceiver for Events<'_> {
    fn enter(&mut self) -> bool {
        let free = self.levels > 0;
        self.levels -= usize::from(free);
        free
    }

    fn leave(&mut self) {
        self.levels += 1;
    }

    fn stop(&mut self, record: usize) {
        assert!(self.stop.get().is_none(), "the walk goes on after its stop");
        self.stop.set(Some(record));
    }
}

/// Keeps errors until the walk is stopped, each with its line, and how many events were
/// before it.
struct Errors<'a> {
    list: Vec<[u32; ERROR_WORDS]>,
    events_before: Vec<usize>,
    count: &'a Cell<usize>,
    lines: Lines,
    stop: &'a Cell<Option<usize>>,
}

impl ErrorSink for Errors<'_> {
    fn report_error(&mut self, error: ParseError) {
        if self.stop.get().is_none() {
            self.list.push(numbers::error_words(&error, &self.lines));
            self.events_before.push(self.count.get());
        }
    }
}
