//! A macro for the enums of this crate: each case has a number of docs/LAYOUT.md and a text.

/// Makes an enum with numbers and texts. `Display` prints the text.
macro_rules! numbered {
    ($(#[$about:meta])* $name:ident { $($(#[$means:meta])* $case:ident = $number:literal => $text:literal,)+ }) => {
        $(#[$about])*
        #[derive(Clone, Copy, Debug, PartialEq, Eq, PartialOrd, Ord, Hash)]
        pub enum $name {
            $($(#[$means])* $case = $number,)+
        }

        impl $name {
            /// All cases, by rising number.
            pub const ALL: &'static [$name] = &[$($name::$case,)+];

            /// The number of this case in docs/LAYOUT.md.
            pub const fn number(self) -> u32 {
                self as u32
            }

            /// The case with this number.
            pub const fn from_number(number: u32) -> Option<$name> {
                match number {
                    $($number => Some($name::$case),)+
                    _ => None,
                }
            }

            /// The text that `Display` prints.
            pub const fn text(self) -> &'static str {
                match self {
                    $($name::$case => $text,)+
                }
            }
        }

        impl core::fmt::Display for $name {
            fn fmt(&self, f: &mut core::fmt::Formatter<'_>) -> core::fmt::Result {
                f.pad(self.text())
            }
        }
    };
}

pub(crate) use numbered;
