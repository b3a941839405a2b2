//! Writing cases with the oracle's answers as frames: what the feeder of ./differ and
//! the maker of the replay program's file share. src/frame.rs says what a frame is.

use std::io::Write;

use crate::batch::Case;
use crate::frame;
use crate::grammar;
use crate::headers;
use crate::headers::Found;
use crate::judged_compared;
use crate::lexer::Token;
use crate::lexer::TokenKind;
use crate::modes;
use crate::numbers::ERROR_WORDS;
use crate::records;
use crate::texts;
use crate::texts::Rooms;
use crate::texts::Text;
use crate::wrong::spoil;
use crate::wrong::spoil_errors;
use crate::wrong::Wrong;
use crate::Answer;
use crate::Entry;
use crate::Judged;

/// Of so many lists or texts that go through the modes one is asked in an unknown mode too.
const UNKNOWN_EACH: u64 = 401;
/// Bytes that are gathered before they are written.
const GATHERED: usize = 800_000;

/// What is to be written, and how many cases there were.
pub struct Feed<W> {
    to: W,
    out: Vec<u8>,
    cases: u64,
    wrong: Option<Wrong>,
    /// How many were asked, where they go through the modes.
    turn: Option<u64>,
}

impl<W: Write> Feed<W> {
    /// Frames for `to`, with something wrong asked for if that is wanted. Each case is asked
    /// in the mode that it has.
    pub fn new(to: W, wrong: Option<Wrong>) -> Self {
        Self {
            to,
            out: Vec::new(),
            cases: 0,
            wrong,
            turn: None,
        }
    }

    /// The same, whatever mode the cases have: in both if a place hangs on it, else in one of
    /// them; and now and then in an unknown mode.
    pub fn through_modes(self) -> Self {
        Self {
            turn: Some(0),
            ..self
        }
    }

    /// The modes in which to ask what has this mode and gives this.
    fn modes(&mut self, own: u32, hangs_on_mode: bool) -> Vec<u32> {
        let Some(turn) = &mut self.turn else {
            return vec![own];
        };
        *turn += 1;
        let mut modes = if hangs_on_mode {
            vec![modes::CRATE, modes::BRACE]
        } else {
            // the highest bit of such products changes without a pattern
            vec![(turn.wrapping_mul(0x9e37_79b9_7f4a_7c15) >> 63) as u32]
        };
        if *turn % UNKNOWN_EACH == 0 {
            let which = (*turn / UNKNOWN_EACH) as usize % modes::UNKNOWN.len();
            modes.push(modes::UNKNOWN[which]);
        }
        modes
    }

    /// The mode in which the oracle is asked: another one if that is wanted wrong.
    fn asked(&self, mode: u32) -> u32 {
        match self.wrong {
            Some(Wrong::Brace) if mode == modes::BRACE => modes::CRATE,
            Some(Wrong::Modes) if !modes::is_known(mode) => modes::CRATE,
            _ => mode,
        }
    }

    /// How many cases there were.
    pub fn cases(&self) -> u64 {
        self.cases
    }

    /// Adds a case with the room that it has.
    pub fn put(&mut self, case: Case) -> Result<(), String> {
        let room = (case.event_words, case.error_words);
        self.put_in_rooms(case, |_, _| [room])
    }

    /// Adds the case once in each of these rooms, which are chosen by the words that
    /// its events and errors need.
    pub fn put_in_rooms<R>(
        &mut self,
        mut case: Case,
        rooms: impl FnOnce(usize, usize) -> R,
    ) -> Result<(), String>
    where
        R: IntoIterator<Item = (usize, usize)>,
    {
        let judged = judged_compared(case.entry, case.base, &case.bytes)?;
        let (events, errors) = judged.counts();
        for (event_words, error_words) in rooms(4 * events, ERROR_WORDS * errors) {
            case.event_words = event_words;
            case.error_words = error_words;
            for mode in self.modes(case.mode, judged.hangs_on_mode()) {
                let judged = judged.in_mode(self.asked(mode), case.base, &case.bytes);
                let case = Case {
                    mode,
                    ..case.clone()
                };
                self.put_judged(&case, &judged)?;
            }
        }
        Ok(())
    }

    fn put_judged(&mut self, case: &Case, judged: &Judged) -> Result<(), String> {
        let mut events = vec![0; case.event_words];
        let mut errors = vec![0; case.error_words];
        let answer = judged.answer(&mut events, &mut errors);
        if let Some(wrong) = self.wrong {
            spoil_errors(
                errors.chunks_exact_mut(ERROR_WORDS).take(answer.errors),
                wrong,
            );
        }
        frame::push_case(&mut self.out, case, &answer, &events, &errors);
        self.added(1)
    }

    /// Adds a text, of this mode, in each of these rooms, which are chosen by what it needs.
    pub fn put_text<R>(
        &mut self,
        mode: u32,
        bytes: &[u8],
        rooms: impl FnOnce(Rooms) -> R,
    ) -> Result<(), String>
    where
        R: IntoIterator<Item = Rooms>,
    {
        let text = texts::judge(bytes)?;
        let rooms: Vec<Rooms> = rooms(text.needs()).into_iter().collect();
        for mode in self.modes(mode, text.hangs_on_mode()) {
            self.put_text_in(mode, bytes, &text, &rooms)?;
        }
        Ok(())
    }

    fn put_text_in(
        &mut self,
        mode: u32,
        bytes: &[u8],
        text: &Text,
        rooms: &[Rooms],
    ) -> Result<(), String> {
        let asked = self.asked(mode);
        let mut text = text.in_mode(asked);
        if let Some(wrong) = self.wrong {
            spoil(&mut text, wrong);
        }
        let unwritten = 6 * usize::from(self.wrong == Some(Wrong::Untouched));
        frame::push_text(&mut self.out, (mode, asked), bytes, &text, rooms, unwritten);
        self.added(rooms.len() as u64)
    }

    /// Adds whether the list fits as a document, in the rooms that the number of its
    /// records gives.
    pub fn put_fits<R>(
        &mut self,
        mut case: Case,
        rooms: impl FnOnce(usize) -> R,
    ) -> Result<(), String>
    where
        R: IntoIterator<Item = usize>,
    {
        let judged = judged_compared(Entry::Document, case.base, &case.bytes)?;
        let kinds: Option<Vec<TokenKind>> = records::tokens(case.base, &case.bytes)
            .ok()
            .map(|tokens| tokens.iter().map(Token::kind).collect());
        let mut fits = match &kinds {
            Some(kinds) => texts::fits(kinds, &judged)?,
            None => false,
        };
        if self.wrong == Some(Wrong::Fits) {
            let kinds = kinds.as_deref().unwrap_or_default();
            fits ^= kinds.contains(&TokenKind::LeftCurlyBracket);
        }
        let regular = kinds.map_or(2, |kinds| usize::from(grammar::is_regular(&kinds)));
        let records = case.bytes.len() / 6;
        for event_words in rooms(records) {
            case.event_words = event_words;
            let quiet = match &judged {
                Judged::Walked(lists, None) => {
                    lists.is_quiet() && lists.events.len() <= event_words / 4
                }
                _ => false,
            };
            let verdict = texts::verdict(&judged, records, fits, event_words);
            frame::push_fits(&mut self.out, &case, &verdict, regular, quiet);
            self.added(1)?;
        }
        Ok(())
    }

    /// Adds the index of a run with this answer and these event words, in the rooms that
    /// its bytes give.
    pub fn put_index<R>(
        &mut self,
        answer: &Answer,
        words: &[u32],
        rooms: impl FnOnce(usize) -> R,
    ) -> Result<(), String>
    where
        R: IntoIterator<Item = usize>,
    {
        let kinds = headers::quiet_kinds(answer, words);
        let mut found = kinds.map(|kinds| headers::headers(&kinds));
        let bytes = headers::ENTRY * found.as_ref().map_or(0, Vec::len);
        if self.wrong == Some(Wrong::Index) {
            let spoiled = found
                .iter_mut()
                .flatten()
                .filter(|header| header.parts == 2);
            spoiled.for_each(|header| header.events -= 1);
        }
        let in_room = |room| (room, headers::indexed(found.as_deref(), room));
        let rooms: Vec<_> = rooms(bytes).into_iter().map(in_room).collect();
        frame::push_index(
            &mut self.out,
            answer,
            words,
            found.as_deref().unwrap_or_default(),
            &rooms,
        );
        self.added(rooms.len() as u64)
    }

    /// Adds what is at a position in the bytes of an index.
    pub fn put_found(&mut self, bytes: &[u8], at: usize) -> Result<(), String> {
        let mut found = headers::found(bytes, at);
        if let (Some(Wrong::Entries), Found::Header(header)) = (self.wrong, &mut found) {
            header.array = false;
        }
        frame::push_found(&mut self.out, bytes, at, &found);
        self.added(1)
    }

    /// Counts cases that were added, and writes if enough was gathered.
    fn added(&mut self, cases: u64) -> Result<(), String> {
        self.cases += cases;
        if self.out.len() >= GATHERED {
            self.write()?;
        }
        Ok(())
    }

    /// Adds a note.
    pub fn note(&mut self, text: &str) {
        frame::push_note(&mut self.out, text);
    }

    /// Adds the end.
    pub fn end(&mut self) -> Result<(), String> {
        frame::push_end(&mut self.out, self.cases);
        self.write()
    }

    /// Writes what was gathered. If nobody reads any more, a difference was found,
    /// and there is nothing left to do.
    fn write(&mut self) -> Result<(), String> {
        match self.to.write_all(&self.out) {
            Err(error) if error.kind() == std::io::ErrorKind::BrokenPipe => std::process::exit(0),
            done => done.map_err(|e| e.to_string())?,
        }
        self.out.clear();
        Ok(())
    }
}

/// Words to spare, for events and for errors: an entry and one word more.
pub const SPARE: (usize, usize) = (5, ERROR_WORDS + 1);

/// Words of room where so many are needed: none, one short, exact, or some to spare.
pub fn room(which: usize, needed: usize, spare: usize) -> usize {
    match which {
        0 => 0,
        1 => needed.saturating_sub(1),
        2 => needed,
        _ => needed + spare,
    }
}

/// Rooms for events and errors with words to spare, and then others that go by `turn`.
pub fn ample_and_another(turn: u64, events: usize, errors: usize) -> [(usize, usize); 2] {
    let (first, second) = ((turn % 4) as usize, (turn / 4 % 4) as usize);
    [(3, 3), (first, second)]
        .map(|(first, second)| (room(first, events, SPARE.0), room(second, errors, SPARE.1)))
}

/// The length if the kind may have it, else the one that it must have.
pub fn right_length(kind: u16, length: u32) -> u32 {
    match kind {
        1..=7 => 1,
        16 => 0,
        _ => length,
    }
}

/// The list number `list` among the 16 to the power of `length` lists of so many
/// tokens. Lengths differ by place.
pub fn short_list(length: u32, list: u64) -> Vec<(u16, u32)> {
    let pair = |place: u32| {
        let kind = 1 + (list >> (4 * place) & 15) as u16;
        (kind, right_length(kind, 1 + place % 3))
    };
    (0..length).map(pair).collect()
}
