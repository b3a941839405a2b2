//! What a caller chooses of a run.

use crate::foreign::RawOptions;
use crate::numbered::numbered;

numbered! {
    /// Which comma is blamed where `}` stands after a comma, a key or `=`, which is
    /// [`TrailingCommasAreNotSupportedInInlineTables`](crate::Message::TrailingCommasAreNotSupportedInInlineTables). If there is none, the place
    /// before the `}` is. All else is the same in both modes.
    #[derive(Default)]
    #[non_exhaustive]
    Mode {
        /// The nearest comma before the `}`, wherever it is, as in toml_parser.
        #[default]
        Crate = 0 => "crate",
        /// The nearest comma before the `}` and behind the `{` of the same table.
        Brace = 1 => "brace",
    }
}

/// What a caller chooses of a run. [`Options::default`] is what toml_parser does.
///
/// ```
/// use deckmarten::{Mode, Options, Room};
///
/// // the value of `a` is missing; the only comma is in an array two lines above
/// let text = b"y = [1,\n2]\nx = {a = }\n";
/// let lines = |options| Room::with_options(options).parse_text(text).errors().map(|error| error.line).collect::<Vec<_>>();
/// assert_eq!(lines(Options::default()), [1]);
/// assert_eq!(lines(Options::default().mode(Mode::Brace)), [3]);
/// ```
#[derive(Clone, Copy, Debug, Default, PartialEq, Eq, Hash)]
#[must_use]
pub struct Options {
    mode: Mode,
}

impl Options {
    /// [`Options::default`], also for constants.
    pub const fn new() -> Options {
        Options { mode: Mode::Crate }
    }

    /// The same with this mode.
    pub const fn mode(self, mode: Mode) -> Options {
        Options { mode }
    }

    /// As the library takes it.
    pub(crate) const fn raw(self) -> RawOptions {
        RawOptions { mode: self.mode.number() }
    }
}
