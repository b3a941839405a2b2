//! What a receiver and a sink saw, without the types of either side.

/// A place: start and end.
pub type Places = (usize, usize);
/// A token: its kind, and where.
pub type Token = (String, Places);
/// An event: the function that was called, where, and how it is quoted.
pub type Event = (&'static str, Places, Option<&'static str>);

/// A report: its text, its context, what was expected, and where.
#[derive(Clone, Debug, PartialEq, Eq)]
pub struct Report {
    pub description: &'static str,
    pub context: Option<Places>,
    pub expected: Option<Vec<(&'static str, &'static str)>>,
    pub unexpected: Option<Places>,
}

/// What was seen of one run.
#[derive(Clone, Debug, Default, PartialEq, Eq)]
pub struct Run {
    pub events: Vec<Event>,
    pub reports: Vec<Report>,
}

/// All that was seen of a text: its tokens, and a run for each entry, with the last token and without it.
#[derive(Clone, Debug, Default, PartialEq, Eq)]
pub struct Seen {
    pub tokens: Vec<Token>,
    pub runs: Vec<Run>,
}

/// What the report says that a list is refused for its depth.
pub const DEEP: &str = "a 65th array or inline table would be open";

impl Run {
    /// What came before a refusal for depth, if that is the last report.
    pub fn refused(&self) -> Option<Run> {
        let (last, before) = self.reports.split_last()?;
        (last.description == DEEP).then(|| Run { events: self.events.clone(), reports: before.to_vec() })
    }

    /// Whether the other begins with all of this.
    pub fn begins(&self, other: &Run) -> bool {
        other.events.starts_with(&self.events) && other.reports.starts_with(&self.reports)
    }
}
